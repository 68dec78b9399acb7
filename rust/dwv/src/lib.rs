//! Verifies the DWARF debugging information of a linked ELF64 file in memory, with the proved code of `dwv`.
//!
//! ```
//! match dwv::check(b"no ELF file") {
//!     Ok(counts) => println!("sound: {} entries", counts.entries),
//!     Err(error) => assert_eq!(error.to_string(), "fault E2 NotElf64 at section 0"),
//! }
//! ```
#![warn(missing_docs)]
pub mod addresses;
pub mod constants;
mod rows;
mod rule;
pub mod table;

use std::{error, fmt};

pub use addresses::Addresses;
pub use rule::Rule;
pub use table::Table;

/// The version of this crate and of the library that it is for.
pub const VERSION: &str = env!("CARGO_PKG_VERSION");

/// What a sound file has.
#[derive(Clone, Copy, Debug, PartialEq, Eq)]
pub struct Counts {
    /// How many units.
    pub units: u64,
    /// How many entries, in all units.
    pub entries: u64,
    /// How many of the entries are types.
    pub types: u64,
}

/// Where a fault is.
#[derive(Clone, Copy, Debug, PartialEq, Eq, Hash)]
pub enum Section {
    /// `.debug_info`: the place is an offset in it.
    Info,
    /// `.debug_abbrev`: the place is an offset in it.
    Abbrev,
    /// `.debug_line`: the place is an offset in it. Only `Addresses` has faults there.
    Line,
    /// The file itself: the place is the number of a section header, or 0.
    File,
}

/// The first rule that a file violates, and where.
#[derive(Clone, Copy, Debug, PartialEq, Eq)]
pub struct Fault {
    /// The rule.
    pub rule: Rule,
    /// The section of the place.
    pub section: Section,
    /// The place in the section, in bytes from its start; in `Section::File` the number of a section header.
    pub at: u32,
    /// The code of the attribute that the rule is about, or 0.
    pub attribute: u32,
}

/// The six sections that are checked, from a file of any format. One that a file does not have is empty.
#[derive(Clone, Copy, Debug, Default, PartialEq, Eq)]
pub struct Sections<'a> {
    /// `.debug_info`.
    pub info: &'a [u8],
    /// `.debug_abbrev`.
    pub abbrev: &'a [u8],
    /// `.debug_str`.
    pub str: &'a [u8],
    /// `.debug_line_str`.
    pub line_str: &'a [u8],
    /// `.debug_str_offsets`.
    pub str_offsets: &'a [u8],
    /// `.debug_addr`.
    pub addr: &'a [u8],
}

/// A command of the program, of which `report` gives the output.
#[derive(Clone, Copy, Debug, PartialEq, Eq)]
pub enum Request {
    /// `dwv check`.
    Check,
    /// `dwv check --json`.
    CheckJson,
    /// `dwv show`.
    Show,
    /// `dwv types`.
    Types,
    /// `dwv size`, with an offset in `.debug_info`.
    Size(u32),
}

/// The exit status that the program has after a command.
#[derive(Clone, Copy, Debug, PartialEq, Eq)]
pub enum Status {
    /// The file is sound.
    Sound,
    /// The file violates a rule.
    Fault,
    /// No type starts at the offset.
    NotAType,
}

/// Why there is no result.
#[derive(Clone, Copy, Debug, PartialEq, Eq)]
pub enum Error {
    /// The file violates a rule.
    Fault(Fault),
    /// An allocation failed, and nothing is said of the file.
    NoMemory,
    /// The file is sound, and has more values than its table may have. No memory was asked for them.
    TooManyValues {
        /// How many it has.
        values: u64,
        /// How many the table may have.
        limit: u64,
    },
}

/// The counts of a sound file. Any other gives its fault.
pub fn check(file: &[u8]) -> Result<Counts, Error> {
    let mut raw = Raw::default();
    // SAFETY: the pointer of a slice is not null and valid for its length, and only this call uses `raw`.
    let status = unsafe { dwv_check(file.as_ptr(), file.len(), &mut raw) };
    raw.verdict(status)
}

/// The counts of sound sections. Any others give their fault.
pub fn check_sections(sections: &Sections<'_>) -> Result<Counts, Error> {
    let Sections { info, abbrev, str, line_str, str_offsets, addr } = sections;
    let mut raw = Raw::default();
    // SAFETY: as in `check`.
    let status = unsafe {
        dwv_check_sections(
            info.as_ptr(),
            info.len(),
            abbrev.as_ptr(),
            abbrev.len(),
            str.as_ptr(),
            str.len(),
            line_str.as_ptr(),
            line_str.len(),
            str_offsets.as_ptr(),
            str_offsets.len(),
            addr.as_ptr(),
            addr.len(),
            &mut raw,
        )
    };
    raw.verdict(status)
}

/// What a command of the program prints of a file, and its exit status. The only error is `NoMemory`.
pub fn report(file: &[u8], request: Request) -> Result<(Status, Vec<u8>), Error> {
    let (number, offset) = match request {
        Request::Check => (0, 0),
        Request::CheckJson => (1, 0),
        Request::Show => (2, 0),
        Request::Types => (3, 0),
        Request::Size(offset) => (4, offset),
    };
    let mut buffer = vec![0; 4096];
    loop {
        let mut needed = 0;
        let (to, room) = (buffer.as_mut_ptr(), buffer.len());
        // SAFETY: as in `check`, and the buffer has `room` bytes that are initialized.
        let status = unsafe { dwv_report(file.as_ptr(), file.len(), number, offset, to, room, &mut needed) };
        if status == 4 {
            return Err(Error::NoMemory);
        }
        buffer.resize(needed, 0);
        match status {
            0 => return Ok((Status::Sound, buffer)),
            1 => return Ok((Status::Fault, buffer)),
            2 => return Ok((Status::NotAType, buffer)),
            _ => {}
        }
    }
}

impl Section {
    /// `.debug_info`, `.debug_abbrev`, `.debug_line` or `file`.
    pub const fn name(self) -> &'static str {
        match self {
            Section::Info => ".debug_info",
            Section::Abbrev => ".debug_abbrev",
            Section::Line => ".debug_line",
            Section::File => "file",
        }
    }
}

impl fmt::Display for Counts {
    fn fmt(&self, f: &mut fmt::Formatter<'_>) -> fmt::Result {
        write!(f, "sound: {} units, {} entries, {} types", self.units, self.entries, self.types)
    }
}

/// The first line that `dwv check` prints.
impl fmt::Display for Fault {
    fn fmt(&self, f: &mut fmt::Formatter<'_>) -> fmt::Result {
        let Fault { rule, section, at, attribute } = self;
        match section {
            Section::File => write!(f, "fault {rule} at section {at}"),
            _ => write!(f, "fault {rule} at {}+{at:#010x} attribute {attribute:#x}", section.name()),
        }
    }
}

impl fmt::Display for Error {
    fn fmt(&self, f: &mut fmt::Formatter<'_>) -> fmt::Result {
        match self {
            Error::Fault(fault) => fault.fmt(f),
            Error::NoMemory => f.write_str("out of memory"),
            Error::TooManyValues { values, limit } => write!(f, "{values} values, and the limit is {limit}"),
        }
    }
}

impl error::Error for Fault {}
impl error::Error for Error {}

/// `struct dwv_verdict` of dwv.h.
#[repr(C)]
#[derive(Default)]
struct Raw {
    units: u64,
    entries: u64,
    types: u64,
    at: u32,
    attribute: u32,
    rule: [u8; 8],
    section: [u8; 16],
    name: [u8; 24],
}

impl Raw {
    fn verdict(&self, status: u32) -> Result<Counts, Error> {
        match status {
            0 => Ok(Counts { units: self.units, entries: self.entries, types: self.types }),
            1 => Err(Error::Fault(self.fault())),
            _ => Err(Error::NoMemory),
        }
    }

    fn fault(&self) -> Fault {
        let rule = Rule::from_code(text(&self.rule)).expect("libdwv is of another version than this crate");
        let section = match text(&self.section) {
            ".debug_info" => Section::Info,
            ".debug_abbrev" => Section::Abbrev,
            ".debug_line" => Section::Line,
            _ => Section::File,
        };
        Fault { rule, section, at: self.at, attribute: self.attribute }
    }
}

extern "C" {
    fn dwv_check(file: *const u8, length: usize, verdict: *mut Raw) -> u32;
    fn dwv_check_sections(
        info: *const u8,
        info_length: usize,
        abbrev: *const u8,
        abbrev_length: usize,
        str: *const u8,
        str_length: usize,
        line_str: *const u8,
        line_str_length: usize,
        str_offsets: *const u8,
        str_offsets_length: usize,
        addr: *const u8,
        addr_length: usize,
        verdict: *mut Raw,
    ) -> u32;
    fn dwv_report(
        file: *const u8,
        length: usize,
        request: u32,
        offset: u32,
        buffer: *mut u8,
        capacity: usize,
        needed: *mut usize,
    ) -> u32;
}

/// The text of a field, which ends before its first zero byte.
fn text(field: &[u8]) -> &str {
    std::str::from_utf8(field.split(|byte| *byte == 0).next().unwrap_or_default()).unwrap_or_default()
}
