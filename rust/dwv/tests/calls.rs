use dwv::{
    addresses::Frame, constants::*, table::Value, Addresses, Counts, Error, Fault, Request, Rule, Section, Sections,
    Status, Table,
};
use std::{collections::BTreeSet, thread};

const SAMPLE: &[u8] = include_bytes!("../../../crates/dwv/data/X1");
// The function `four`, which has `twice` inlined from 0x1004 on.
const FOUR: &[u8] = include_bytes!("../../../crates/dwv_addr/data/four");
const SOUND: Counts = Counts { units: 1, entries: 2, types: 1 };

#[test]
fn a_sound_file() {
    assert_eq!(dwv::check(SAMPLE), Ok(SOUND));
    assert_eq!(dwv::report(SAMPLE, Request::Types), Ok((Status::Sound, Vec::new())));
    assert_eq!(dwv::report(SAMPLE, Request::Size(15)), Ok((Status::Sound, b"size 4\n".to_vec())));
    assert_eq!(dwv::report(SAMPLE, Request::Size(12)), Ok((Status::NotAType, b"not a type\n".to_vec())));
    assert_eq!(dwv::report(SAMPLE, Request::Check).unwrap().1, format!("{SOUND}\n").as_bytes());
}

#[test]
fn a_fault_of_the_sections() {
    let mut file = SAMPLE.to_vec();
    let name = file.windows(5).position(|bytes| bytes == b"\x02int\0").unwrap();
    file[name] = 3;
    let fault = Fault { rule: Rule::UndeclaredCode, section: Section::Info, at: 15, attribute: 0 };
    assert_eq!(fault.to_string(), "fault G1 UndeclaredCode at .debug_info+0x0000000f attribute 0x0");
    assert_eq!(dwv::check(&file), Err(Error::Fault(fault)));
    assert_eq!(Table::of(&file).err(), Some(Error::Fault(fault)));
    assert_eq!(dwv::report(&file, Request::Types), Ok((Status::Fault, format!("{fault}\n").into_bytes())));
    assert_eq!(dwv::report(&file, Request::CheckJson).unwrap().0, Status::Fault);
    assert_eq!(dwv::report(&file, Request::Show).unwrap().1, format!("{fault}\n").as_bytes());
}

#[test]
fn sections_alone() {
    let (abbrev, info) = (&SAMPLE[0x40..0x53], &SAMPLE[0x53..0x6a]);
    let sections = Sections { abbrev, info, ..Sections::default() };
    assert_eq!(dwv::check_sections(&sections), Ok(SOUND));
    let result = dwv::check_sections(&Sections { info, ..Sections::default() });
    assert!(matches!(result, Err(Error::Fault(Fault { rule: Rule::BadAbbrevOffset, .. }))));
}

#[test]
fn a_table() -> Result<(), Error> {
    let table = Table::of(SAMPLE)?;
    let entries: Vec<_> = table.entries().collect();
    assert_eq!((table.units().len(), entries.len()), (1, 2));
    let (unit, number) = (entries[0], entries[1]);
    assert_eq!((unit.tag(), unit.name(), unit.size()), (DW_TAG_compile_unit, Some(&b"a"[..]), None));
    assert_eq!((number.offset(), number.depth(), number.size()), (15, 1, Some(4)));
    assert_eq!(number.attribute(DW_AT_name), Some(Value::Text(b"int")));
    assert_eq!(number.attribute(DW_AT_byte_size), Some(Value::Unsigned(4)));
    assert_eq!((number.attribute(DW_AT_type), number.attributes().len()), (None, 3));
    assert_eq!((number.parent(), unit.parent()), (Some(unit), None));
    assert!(unit.children().eq([number]) && number.children().next().is_none());
    Ok(())
}

#[test]
fn debug_texts_are_short() -> Result<(), Error> {
    let table = Table::of(SAMPLE)?;
    assert_eq!(format!("{table:?}"), "Table { units: 1, entries: 2, values: 4 }");
    let number = table.entry(1).unwrap();
    let text = r#"Entry { row: 1, offset: 0xf, tag: 0x24, name: Some("int") }"#;
    assert_eq!(format!("{number:?}"), text);
    assert_eq!(format!("{:?}", Value::Reference(number)), format!("Reference({text})"));
    Ok(())
}

/// The sections of a unit that has so many children, each with so many flags whose values take no bytes.
fn flags(children: usize, flags: u16) -> (Vec<u8>, Vec<u8>) {
    let codes = (0..flags).flat_map(|code| [0x80 | (code & 0x7f) as u8, 0xc0 | (code >> 7) as u8, 0x00, 0x19]);
    let abbrev = [1, 0x11, 1, 0, 0, 2, 0x34, 0].into_iter().chain(codes).chain([0; 3]).collect();
    let items: Vec<u8> = [1].into_iter().chain(vec![2; children]).chain([0]).collect();
    let length = (8 + items.len() as u32).to_le_bytes();
    let info = length.into_iter().chain([5, 0, 1, 8, 0, 0, 0, 0]).chain(items).collect();
    (abbrev, info)
}

#[test]
fn a_table_of_at_most_so_many_values() {
    let too_many = |result: Result<Table<'_>, Error>| result.map(|table| table.entries().len()).unwrap_err();
    let (abbrev, info) = flags(3, 50);
    let sections = Sections { abbrev: &abbrev, info: &info, ..Sections::default() };
    assert!(Table::of_sections_at_most(&sections, 150).is_ok());
    let error = too_many(Table::of_sections_at_most(&sections, 149));
    assert_eq!(error, Error::TooManyValues { values: 150, limit: 149 });
    assert_eq!(error.to_string(), "150 values, and the limit is 149");
    assert!(Table::of_at_most(SAMPLE, 4).is_ok());
    assert_eq!(too_many(Table::of_at_most(SAMPLE, 3)), Error::TooManyValues { values: 4, limit: 3 });
    // 38 KB, of which the rows would take 3.8 GB.
    let (abbrev, info) = flags(30_000, 4_000);
    let sections = Sections { abbrev: &abbrev, info: &info, ..Sections::default() };
    let limit = info.len() as u64 + 1_000_000;
    assert_eq!(too_many(Table::of_sections(&sections)), Error::TooManyValues { values: 120_000_000, limit });
}

#[test]
fn a_table_of_sections() -> Result<(), Error> {
    let sections = Sections { abbrev: &SAMPLE[0x40..0x53], info: &SAMPLE[0x53..0x6a], ..Sections::default() };
    let table = Table::of_sections(&sections)?;
    let names: Vec<_> = table.entries().map(|entry| entry.name()).collect();
    assert_eq!(names, [Some(&b"a"[..]), Some(&b"int"[..])]);
    assert!(matches!(Table::of(b"no ELF file"), Err(Error::Fault(Fault { rule: Rule::NotElf64, .. }))));
    Ok(())
}

#[test]
fn a_table_with_more_values_than_compilers_write() -> Result<(), Error> {
    let info = [9, 0, 0, 0, 5, 0, 1, 8, 0, 0, 0, 0, 1];
    for count in [1, 100] {
        let flags = (0..count).flat_map(|code| [0x80 | code, 0x40, 0x19]);
        let abbrev: Vec<u8> = [1, 0x11, 0].into_iter().chain(flags).chain([0; 3]).collect();
        let table = Table::of_sections(&Sections { abbrev: &abbrev, info: &info, ..Sections::default() })?;
        let unit = table.entry(0).unwrap();
        assert!(unit.attributes().eq((0..count).map(|code| (0x2000 + u32::from(code), Value::Flag(true)))));
    }
    Ok(())
}

/// A frame in the file of FOUR.
fn frame(function: &'static [u8], line: u64, column: u64, entry: u32) -> Frame<'static> {
    let (line, column) = (Some(line), Some(column));
    Frame { function: Some(function), file: Some(b"/src/four.c"), line, column, entry: Some(entry), unit: 0 }
}

#[test]
fn frames_of_addresses() -> Result<(), Error> {
    let mut addresses = Addresses::new(FOUR)?;
    let (start, inner, call) = (frame(b"four", 2, 5, 2), frame(b"twice", 1, 33, 3), frame(b"four", 2, 22, 2));
    assert!(addresses.frames(0x1000)?.eq([start]));
    assert!(addresses.frames(0x1006)?.eq([inner, call]));
    assert_eq!(addresses.frames(0x2000)?.len(), 0);
    let found = addresses.find(&[0x1006, 0x2000, 0x1000])?;
    assert_eq!(found.iter().map(|frames| frames.len()).collect::<Vec<_>>(), [2, 0, 1]);
    assert!(found.frames(0).eq([inner, call]) && found.frames(2).eq([start]));
    assert_eq!(Table::of(FOUR)?.entry(inner.entry.unwrap()).unwrap().tag(), DW_TAG_inlined_subroutine);
    assert!(addresses.find(&[])?.is_empty());
    Ok(())
}

#[test]
fn frames_of_more_addresses_than_before() -> Result<(), Error> {
    let mut addresses = Addresses::new(FOUR)?;
    for count in [1, 1000, 10] {
        let found = addresses.find(&vec![0x1006; count])?;
        assert_eq!(found.len(), count);
        assert!(found.iter().all(|frames| frames.map(|frame| frame.line).eq([Some(1), Some(2)])));
    }
    Ok(())
}

#[test]
fn addresses_of_a_file_without_lines() -> Result<(), Error> {
    assert_eq!(Addresses::new(SAMPLE)?.frames(0)?.len(), 0);
    Ok(())
}

#[test]
fn faults_of_lines_and_ranges() {
    let fault = |place: usize, byte| {
        let mut file = FOUR.to_vec();
        file[place] = byte;
        assert!(dwv::check(&file).is_ok());
        Addresses::new(&file).unwrap_err().to_string()
    };
    // The version of the line program, and the size of the unit.
    assert_eq!(fault(0xdd + 4, 6), "fault L4 LineVersion at .debug_line+0x00000000 attribute 0x0");
    assert_eq!(fault(0x85 + 0x1f, 0x0f), "fault X9 OutsideUnit at .debug_info+0x00000030 attribute 0x0");
    assert!(matches!(Addresses::new(b"no ELF file"), Err(Error::Fault(Fault { rule: Rule::NotElf64, .. }))));
}

#[test]
fn no_bytes() {
    let fault = Fault { rule: Rule::NotElf64, section: Section::File, at: 0, attribute: 0 };
    assert_eq!(dwv::check(&[]), Err(Error::Fault(fault)));
}

#[test]
fn codes_and_names() {
    let rules = include_str!("../../../docs/RULES.md");
    for rule in Rule::ALL {
        assert_eq!(Rule::from_code(rule.code()), Some(*rule));
        assert!(rules.contains(&format!("| {} | {} |", rule.code(), rule.name())), "{rule} is not in RULES.md");
    }
    let codes: BTreeSet<&str> = rules.lines().filter_map(|line| line.strip_prefix("| ")?.split(' ').next()).collect();
    let is_rule = |code: &&&str| {
        let (group, number) = code.split_at(code.len().min(1));
        "EAUGKSRYCZLMFX".contains(group) && number.bytes().all(|b| b.is_ascii_digit()) && !number.is_empty()
    };
    assert_eq!(codes.iter().filter(is_rule).count(), Rule::ALL.len());
}

#[test]
fn threads() {
    thread::scope(|scope| {
        for _ in 0..8 {
            scope.spawn(|| (0..1000).for_each(|_| assert!(dwv::check(SAMPLE).is_ok())));
        }
    });
}
