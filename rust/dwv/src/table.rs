//! What a sound file says, in three arrays: its units, entries and values.
use crate::rows::{dwv_table, dwv_table_sections, Counts, EntryRow, ValueRow};
use crate::{Error, Raw, Sections};
use std::fmt;

/// The units, entries and values of a sound file, which it borrows. Nothing in it can fail to be read.
///
/// ```
/// use dwv::{constants::*, table::Value, Table};
///
/// # fn main() -> Result<(), Box<dyn std::error::Error>> {
/// # let path = concat!(env!("CARGO_MANIFEST_DIR"), "/../../crates/dwv/data/X1");
/// let file = std::fs::read(path)?;
/// let table = Table::of(&file)?;
/// for entry in table.entries().filter(|entry| entry.tag() == DW_TAG_base_type) {
///     if let Some(Value::Text(name)) = entry.attribute(DW_AT_name) {
///         println!("{:#x} {} {:?}", entry.offset(), String::from_utf8_lossy(name), entry.size());
///     }
/// }
/// # Ok(())
/// # }
/// ```
#[derive(Clone)]
pub struct Table<'a> {
    /// What places of texts and bytes count in, by the number of the section.
    parts: [&'a [u8]; 4],
    units: Vec<Unit>,
    entries: Vec<EntryRow>,
    values: Vec<ValueRow>,
}

/// A unit: `struct dwv_unit` of dwv.h.
#[repr(C)]
#[derive(Clone, Copy, Debug, Default, PartialEq, Eq)]
pub struct Unit {
    /// The language, as 0x1d for C11, or 0.
    pub language: u64,
    /// Where it starts in .debug_info, in bytes.
    pub offset: u32,
    /// 4 or 5.
    pub version: u32,
    /// As in a header of version 5.
    pub unit_type: u32,
    /// 4 or 8.
    pub address_size: u32,
    /// The row of its first entry.
    pub first: u32,
    /// How many entries it has. Their rows follow one another.
    pub entries: u32,
    /// What indices of range lists count from in .debug_rnglists, or 0. It is not checked.
    pub rnglists_base: u32,
    /// What indices of location lists count from in .debug_loclists, or 0. It is not checked.
    pub loclists_base: u32,
}

/// An entry of a table.
#[derive(Clone, Copy)]
pub struct Entry<'t> {
    table: &'t Table<'t>,
    row: u32,
}

/// What the value of an attribute means.
#[derive(Clone, Copy, Debug, PartialEq, Eq)]
pub enum Value<'t> {
    /// A number without a sign. Its attribute may say that its top bit is one.
    Unsigned(u64),
    /// A number with a sign.
    Signed(i64),
    /// A flag.
    Flag(bool),
    /// An address. An index into .debug_addr is resolved.
    Address(u64),
    /// The bytes of a text, without the zero byte that ends it.
    Text(&'t [u8]),
    /// A block of bytes.
    Block(&'t [u8]),
    /// The bytes of an expression.
    Expression(&'t [u8]),
    /// A number of 16 bytes.
    Wide(u128),
    /// The entry that a reference resolves to.
    Reference(Entry<'t>),
    /// An offset in a section that the attribute implies. What is there is not checked.
    SectionOffset(u64),
    /// The index of a location list, which is not checked.
    LocationList(u64),
    /// The index of a range list, which is not checked.
    RangeList(u64),
}

impl<'a> Table<'a> {
    /// The table of a sound file. Any other gives its fault.
    ///
    /// It has at most a value for each byte of the file, and a million more, which is more than compilers write: a file
    /// of 38 KB can have 120 million values, which take 3.8 GB. With more values it is `TooManyValues`.
    pub fn of(file: &'a [u8]) -> Result<Table<'a>, Error> {
        Table::of_at_most(file, usual_limit(file))
    }

    /// The table of a sound file that has at most so many values, each of 32 bytes.
    pub fn of_at_most(file: &'a [u8], limit: u64) -> Result<Table<'a>, Error> {
        Table::filled([file; 4], limit, |table, counts, raw| {
            // SAFETY: the pointers of slices are not null and valid for their lengths, and those of arrays for their
            // capacities. Rows are numbers, so any memory has a value of them, and none is read before it is written.
            // Only this call uses the arrays, the counts and `raw`.
            unsafe {
                dwv_table(
                    file.as_ptr(),
                    file.len(),
                    table.units.as_mut_ptr(),
                    table.units.capacity(),
                    table.entries.as_mut_ptr(),
                    table.entries.capacity(),
                    table.values.as_mut_ptr(),
                    table.values.capacity(),
                    counts,
                    raw,
                )
            }
        })
    }

    /// The table of sound sections. Any others give their fault. As for `of`, it has at most a value for each byte of
    /// .debug_info, and a million more.
    pub fn of_sections(sections: &Sections<'a>) -> Result<Table<'a>, Error> {
        Table::of_sections_at_most(sections, usual_limit(sections.info))
    }

    /// The table of sound sections that have at most so many values, each of 32 bytes.
    pub fn of_sections_at_most(sections: &Sections<'a>, limit: u64) -> Result<Table<'a>, Error> {
        let Sections { info, abbrev, str, line_str, str_offsets, addr } = *sections;
        Table::filled([&[], info, str, line_str], limit, |table, counts, raw| {
            // SAFETY: as in `of`.
            unsafe {
                dwv_table_sections(
                    info.as_ptr(),
                    info.len(),
                    abbrev.as_ptr(),
                    abbrev.len(),
                    str.as_ptr(),
                    str.len(),
                    line_str.as_ptr(),
                    line_str.len(),
                    str_offsets.as_ptr(),
                    str_offsets.len(),
                    addr.as_ptr(),
                    addr.len(),
                    table.units.as_mut_ptr(),
                    table.units.capacity(),
                    table.entries.as_mut_ptr(),
                    table.entries.capacity(),
                    table.values.as_mut_ptr(),
                    table.values.capacity(),
                    counts,
                    raw,
                )
            }
        })
    }

    /// The table that a call fills. It is called again only if the bytes have more rows than compilers write, or there
    /// is no memory for so many: then the call says how many there are. Rows that are not written are not touched.
    /// Memory for more values than the limit is never asked for.
    fn filled(
        parts: [&'a [u8]; 4],
        limit: u64,
        call: impl Fn(&mut Table<'a>, &mut Counts, &mut Raw) -> u32,
    ) -> Result<Table<'a>, Error> {
        // Compilers write fewer rows for 64 bytes of .debug_info. In all, these take at most 1 GiB.
        let blocks = (parts[1].len() as u64 / 64).min(500_000) + 1;
        let mut counts = Counts { units: blocks, entries: 12 * blocks, values: (40 * blocks).min(limit) };
        let mut is_guess = true;
        loop {
            let mut table = Table { parts, units: Vec::new(), entries: Vec::new(), values: Vec::new() };
            let mut raw = Raw::default();
            let has_memory = table.units.try_reserve_exact(counts.units as usize).is_ok()
                && table.entries.try_reserve_exact(counts.entries as usize).is_ok()
                && table.values.try_reserve_exact(counts.values as usize).is_ok();
            match if has_memory { call(&mut table, &mut counts, &mut raw) } else { 4 } {
                0 => {
                    // SAFETY: a call that returns DWV_SOUND had room for so many rows of each array, and wrote them.
                    unsafe {
                        table.units.set_len(counts.units as usize);
                        table.entries.set_len(counts.entries as usize);
                        table.values.set_len(counts.values as usize);
                    }
                    return Ok(table);
                }
                1 => return Err(Error::Fault(raw.fault())),
                4 if is_guess => counts = Counts::default(),
                4 => return Err(Error::NoMemory),
                _ if counts.values > limit => return Err(Error::TooManyValues { values: counts.values, limit }),
                _ => {}
            }
            is_guess = false;
        }
    }

    /// The units, in the order of the file.
    pub fn units(&self) -> &[Unit] {
        &self.units
    }

    /// All entries, in the order of the file.
    pub fn entries(&self) -> impl ExactSizeIterator<Item = Entry<'_>> {
        (0..self.entries.len() as u32).map(move |row| Entry { table: self, row })
    }

    /// The entry of a row, or None if there are fewer rows.
    pub fn entry(&self, row: u32) -> Option<Entry<'_>> {
        ((row as usize) < self.entries.len()).then_some(Entry { table: self, row })
    }
}

/// The most values that bytes have by default: more than compilers write.
fn usual_limit(bytes: &[u8]) -> u64 {
    bytes.len() as u64 + 1_000_000
}

/// How many units, entries and values it has. The rows may be very many.
impl fmt::Debug for Table<'_> {
    fn fmt(&self, f: &mut fmt::Formatter<'_>) -> fmt::Result {
        f.debug_struct("Table")
            .field("units", &self.units.len())
            .field("entries", &self.entries.len())
            .field("values", &self.values.len())
            .finish()
    }
}

/// Its row, its offset, its tag and its name, and not the table.
impl fmt::Debug for Entry<'_> {
    fn fmt(&self, f: &mut fmt::Formatter<'_>) -> fmt::Result {
        f.debug_struct("Entry")
            .field("row", &self.row)
            .field("offset", &format_args!("{:#x}", self.offset()))
            .field("tag", &format_args!("{:#x}", self.tag()))
            .field("name", &self.name().map(String::from_utf8_lossy))
            .finish()
    }
}

impl<'t> Entry<'t> {
    fn fields(self) -> &'t EntryRow {
        &self.table.entries[self.row as usize]
    }

    /// Its row: how many entries are before it.
    pub fn row(self) -> u32 {
        self.row
    }

    /// Where it starts in .debug_info, in bytes.
    pub fn offset(self) -> u32 {
        self.fields().offset
    }

    /// How many entries are above it.
    pub fn depth(self) -> u32 {
        self.fields().depth
    }

    /// The tag, as `constants::DW_TAG_base_type`.
    pub fn tag(self) -> u32 {
        self.fields().tag
    }

    /// The size in bytes. None if it is no type, or has no size.
    pub fn size(self) -> Option<u64> {
        (self.fields().has_size == 1).then_some(self.fields().size)
    }

    /// The bytes of its name, without the zero byte that ends it.
    pub fn name(self) -> Option<&'t [u8]> {
        let EntryRow { name, name_length, name_section, .. } = *self.fields();
        (name_section != 0).then(|| self.table.bytes(name_section, name, name_length))
    }

    /// Its unit.
    pub fn unit(self) -> &'t Unit {
        &self.table.units[self.fields().unit as usize]
    }

    /// The entry right above it.
    pub fn parent(self) -> Option<Entry<'t>> {
        self.table.entry(self.fields().parent)
    }

    /// The next entry with the same parent.
    pub fn next_sibling(self) -> Option<Entry<'t>> {
        self.table.entry(self.fields().next_sibling)
    }

    /// The entries right below it, in the order of the file.
    pub fn children(self) -> impl Iterator<Item = Entry<'t>> {
        let first = self.table.entry(self.row + 1).filter(|entry| entry.fields().parent == self.row);
        std::iter::successors(first, |entry| entry.next_sibling())
    }

    /// What an attribute says, as `constants::DW_AT_type`. None if the entry does not have it.
    pub fn attribute(self, attribute: u32) -> Option<Value<'t>> {
        self.rows().iter().find(|row| row.attribute == attribute).map(|row| self.table.value(row))
    }

    /// All attributes in the order of the entry, and what they say.
    pub fn attributes(self) -> impl ExactSizeIterator<Item = (u32, Value<'t>)> {
        self.rows().iter().map(move |row| (row.attribute, self.table.value(row)))
    }

    fn rows(self) -> &'t [ValueRow] {
        let EntryRow { first_value, values, .. } = *self.fields();
        &self.table.values[first_value as usize..][..values as usize]
    }
}

/// Entries of the same table are equal if they are the same entry.
impl PartialEq for Entry<'_> {
    fn eq(&self, other: &Self) -> bool {
        std::ptr::eq(self.table, other.table) && self.row == other.row
    }
}

impl Eq for Entry<'_> {}

impl Table<'_> {
    fn bytes(&self, section: u32, start: u64, length: u32) -> &[u8] {
        &self.parts[section as usize][start as usize..][..length as usize]
    }

    fn value(&self, row: &ValueRow) -> Value<'_> {
        let ValueRow { number, length, section, .. } = *row;
        let bytes = || self.bytes(section, number, length);
        match row.kind {
            2 => Value::Signed(number as i64),
            3 => Value::Flag(number != 0),
            4 => Value::Address(number),
            5 => Value::Text(bytes()),
            6 => Value::Block(bytes()),
            7 => Value::Expression(bytes()),
            8 => Value::Wide(bytes().iter().rev().fold(0, |wide, byte| wide << 8 | u128::from(*byte))),
            9 => Value::Reference(Entry { table: self, row: number as u32 }),
            10 => Value::SectionOffset(number),
            11 => Value::LocationList(number),
            12 => Value::RangeList(number),
            _ => Value::Unsigned(number),
        }
    }
}
