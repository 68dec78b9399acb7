//! Reads each entry and each attribute of a program with gimli, and checks nothing: `walk [--resolve | --table] FILE`.
//!
//! With --resolve it also reads each string, and the tag of the entry that each reference names. With --table, a
//! feature of this crate, it reads the same from the table of dwv, which checks the file, and says how long the reading
//! took. `walk --lines FILE` counts the rows of all line programs.

use std::collections::HashMap;
use std::error::Error;

use gimli::{AttributeValue, DebugLineOffset, DebugTypeSignature, EndianSlice, LittleEndian, Section, UnitOffset};
use gimli::{UnitSectionOffset, UnitType};
use object::{Object, ObjectSection};

type Bytes<'a> = EndianSlice<'a, LittleEndian>;
type Dwarf<'a> = gimli::Dwarf<Bytes<'a>>;
type Unit<'a> = gimli::Unit<Bytes<'a>>;

fn main() -> Result<(), Box<dyn Error>> {
    let mut words: Vec<String> = std::env::args().skip(1).collect();
    let file = std::fs::read(words.pop().ok_or("no file")?)?;
    #[cfg(feature = "table")]
    if words == ["--table"] {
        return read_table(&dwv::Table::of(&file)?);
    }
    let file = object::File::parse(&*file)?;
    let dwarf = gimli::Dwarf::load(|id| {
        let section = file.section_by_name(id.name()).and_then(|section| section.data().ok());
        Ok::<_, gimli::Error>(EndianSlice::new(section.unwrap_or(&[]), LittleEndian))
    })?;
    match words.first().map(String::as_str) {
        None => walk(&dwarf),
        Some("--lines") => lines(&dwarf),
        Some(_) => resolve(&dwarf),
    }
}

/// Counts the rows of all line programs, and adds up their lines.
fn lines(dwarf: &Dwarf) -> Result<(), Box<dyn Error>> {
    let (mut count, mut sum, mut offset) = (0u64, 0u64, 0);
    while offset < dwarf.debug_line.reader().len() {
        let program = dwarf.debug_line.program(DebugLineOffset(offset), 8, None, None)?;
        offset += program.header().unit_length() + 4;
        let mut rows = program.rows();
        while let Some((_, row)) = rows.next_row()? {
            count += 1;
            sum += row.line().map_or(0, |line| line.get());
        }
    }
    println!("{count} rows, lines {sum}");
    Ok(())
}

/// Reads all attributes.
fn walk(dwarf: &Dwarf) -> Result<(), Box<dyn Error>> {
    let (mut entries, mut attributes) = (0u64, 0u64);
    let mut headers = dwarf.units();
    while let Some(header) = headers.next()? {
        let table = dwarf.abbreviations(&header)?;
        let mut cursor = header.entries(&table);
        while let Some((_, entry)) = cursor.next_dfs()? {
            entries += 1;
            let mut rest = entry.attrs();
            while rest.next()?.is_some() {
                attributes += 1;
            }
        }
    }
    println!("{entries} entries, {attributes} attributes");
    Ok(())
}

/// Units by their offsets in .debug_info, and the unit and the offset in it of each type with a signature.
struct Units<'a> {
    units: Vec<Unit<'a>>,
    starts: Vec<usize>,
    types: HashMap<DebugTypeSignature, (usize, UnitOffset)>,
}

/// Reads all attributes, the strings, and the tags of the entries that references name.
fn resolve(dwarf: &Dwarf) -> Result<(), Box<dyn Error>> {
    let mut all = Units { units: Vec::new(), starts: Vec::new(), types: HashMap::new() };
    let mut headers = dwarf.units();
    while let Some(header) = headers.next()? {
        if let UnitType::Type { type_signature, type_offset } = header.type_() {
            all.types.insert(type_signature, (all.units.len(), type_offset));
        }
        if let UnitSectionOffset::DebugInfoOffset(start) = header.offset() {
            all.starts.push(start.0);
        }
        all.units.push(dwarf.unit(header)?);
    }
    let (mut entries, mut length, mut types) = (0u64, 0, 0u64);
    for (number, unit) in all.units.iter().enumerate() {
        let mut cursor = unit.entries();
        while let Some((_, entry)) = cursor.next_dfs()? {
            entries += 1;
            let mut rest = entry.attrs();
            while let Some(attribute) = rest.next()? {
                if let Some((unit, offset)) = target(&all, number, attribute.value())? {
                    let target = all.units[unit].entry(offset)?;
                    types += u64::from(target.tag() == gimli::DW_TAG_base_type);
                } else if let Ok(text) = dwarf.attr_string(unit, attribute.value()) {
                    length += text.len();
                }
            }
        }
    }
    println!("{entries} entries, {length} bytes of strings, {types} references to base types");
    Ok(())
}

/// What `resolve` reads, from the table of a sound file.
#[cfg(feature = "table")]
fn read_table(table: &dwv::Table) -> Result<(), Box<dyn Error>> {
    use dwv::table::Value;
    let start = std::time::Instant::now();
    let (mut length, mut types) = (0, 0u64);
    for entry in table.entries() {
        for (_, value) in entry.attributes() {
            match value {
                Value::Text(text) => length += text.len(),
                Value::Reference(target) => types += u64::from(target.tag() == dwv::constants::DW_TAG_base_type),
                _ => {}
            }
        }
    }
    let (entries, taken) = (table.entries().len(), start.elapsed().as_micros());
    println!("{entries} entries, {length} bytes of strings, {types} references to base types");
    eprintln!("{taken} microseconds for reading the table");
    Ok(())
}

/// The unit of the entry that a value of a unit refers to, and the offset in it, if the value is a reference.
fn target(all: &Units, unit: usize, value: AttributeValue<Bytes>) -> Result<Option<(usize, UnitOffset)>, gimli::Error> {
    Ok(match value {
        AttributeValue::UnitRef(offset) => Some((unit, offset)),
        AttributeValue::DebugInfoRef(offset) => {
            let unit = all.starts.partition_point(|start| *start <= offset.0) - 1;
            Some((unit, UnitOffset(offset.0 - all.starts[unit])))
        }
        AttributeValue::DebugTypesRef(signature) => {
            Some(*all.types.get(&signature).ok_or(gimli::Error::NoEntryAtGivenOffset)?)
        }
        _ => None,
    })
}
