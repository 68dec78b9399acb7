//! Verifies files with dwv, and reads the sound ones with gimli without a check: `dwv-gimli FILE..`
//!
//! gimli gets the same six sections that dwv verified. Each of its reads returns a `Result`, and in sound sections none
//! is an error: `sure` takes the value. `sound` says nothing about other sections, so this program reads none of them.
//! For example `gimli::Dwarf::unit` reads `.debug_line`, and its error has to be handled.
//!
//! Then it reads the same from the table of dwv, which has resolved all strings and references, and where no read can
//! fail.
use std::{env, error::Error, fs, process::ExitCode};

use dwv::{constants::DW_AT_name, table::Value, Table};
use gimli::{AttributeValue, DebugStrOffsetsBase, EndianSlice, Format, LittleEndian};
use object::{Object, ObjectSection};

type Bytes<'a> = EndianSlice<'a, LittleEndian>;

fn main() -> Result<ExitCode, Box<dyn Error>> {
    let mut is_sound = true;
    for path in env::args().skip(1) {
        let file = fs::read(&path)?;
        let file = object::File::parse(&*file)?;
        let section = |name| file.section_by_name(name).and_then(|it| it.data().ok()).unwrap_or_default();
        let sections = dwv::Sections {
            info: section(".debug_info"),
            abbrev: section(".debug_abbrev"),
            str: section(".debug_str"),
            line_str: section(".debug_line_str"),
            str_offsets: section(".debug_str_offsets"),
            addr: section(".debug_addr"),
        };
        match dwv::check_sections(&sections) {
            Ok(counts) => {
                let (entries, names) = read(&sections);
                assert_eq!(read_table(&Table::of_sections(&sections)?), (entries, names));
                println!("{path}: {counts}; gimli reads {entries} entries, {names} of them with a name");
                assert_eq!(entries, counts.entries);
            }
            Err(dwv::Error::Fault(fault)) => {
                println!("{path}: {fault}");
                is_sound = false;
            }
            Err(error) => return Err(error.into()),
        }
    }
    Ok(if is_sound { ExitCode::SUCCESS } else { ExitCode::FAILURE })
}

/// What is no error in sound sections.
fn sure<T>(result: gimli::Result<T>) -> T {
    result.expect("dwv found the sections sound")
}

/// How many entries sound sections have, and how many of them have a name. It reads each attribute.
fn read(sections: &dwv::Sections<'_>) -> (u64, u64) {
    let dwarf = sure(gimli::Dwarf::load(|id| {
        let bytes = match id.name() {
            ".debug_info" => sections.info,
            ".debug_abbrev" => sections.abbrev,
            ".debug_str" => sections.str,
            ".debug_line_str" => sections.line_str,
            ".debug_str_offsets" => sections.str_offsets,
            ".debug_addr" => sections.addr,
            _ => &[],
        };
        Ok(EndianSlice::new(bytes, LittleEndian))
    }));
    let (mut entries, mut names) = (0, 0);
    let mut units = dwarf.units();
    while let Some(unit) = sure(units.next()) {
        let table = sure(dwarf.abbreviations(&unit));
        let mut cursor = unit.entries(&table);
        let mut base = None;
        while let Some((_, entry)) = sure(cursor.next_dfs()) {
            // The first entry of the unit says where its indexes start.
            let base = *base.get_or_insert_with(|| match sure(entry.attr_value(gimli::DW_AT_str_offsets_base)) {
                Some(AttributeValue::DebugStrOffsetsBase(start)) => start,
                _ => DebugStrOffsetsBase(0),
            });
            entries += 1;
            let mut attributes = entry.attrs();
            while let Some(attribute) = sure(attributes.next()) {
                let text = text(&dwarf, base, attribute.value());
                names += u64::from(attribute.name() == gimli::DW_AT_name && text.is_some());
            }
        }
    }
    (entries, names)
}

/// The same by the table of the sections.
fn read_table(table: &Table<'_>) -> (u64, u64) {
    let (mut entries, mut names) = (0, 0);
    for entry in table.entries() {
        entries += 1;
        for (attribute, value) in entry.attributes() {
            names += u64::from(attribute == DW_AT_name && matches!(value, Value::Text(_)));
        }
    }
    (entries, names)
}

/// The text of a value, if it is a string. `base` is where the indexes of the unit start in `.debug_str_offsets`.
fn text<'a>(
    dwarf: &gimli::Dwarf<Bytes<'a>>,
    base: DebugStrOffsetsBase,
    value: AttributeValue<Bytes<'a>>,
) -> Option<Bytes<'a>> {
    Some(match value {
        AttributeValue::String(text) => text,
        AttributeValue::DebugStrRef(at) => sure(dwarf.string(at)),
        AttributeValue::DebugLineStrRef(at) => sure(dwarf.line_string(at)),
        AttributeValue::DebugStrOffsetsIndex(index) => {
            sure(dwarf.string(sure(dwarf.debug_str_offsets.get_str_offset(Format::Dwarf32, base, index))))
        }
        _ => return None,
    })
}
