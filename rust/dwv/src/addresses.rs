//! The functions and lines of the addresses of a sound file.
use crate::rows::{dwv_frames, FrameCounts, FrameRow, Located};
use crate::{Error, Raw};
use std::fmt;

/// A file that addresses are looked up in: which functions have one, each inlined in the next, and at which lines of
/// the source.
///
/// `new` and each `find` verify the whole file, its line programs and ranges too. So ask for many addresses at once.
///
/// ```
/// use dwv::Addresses;
///
/// # fn main() -> Result<(), dwv::Error> {
/// # let file = std::fs::read(concat!(env!("CARGO_MANIFEST_DIR"), "/../../crates/dwv_addr/data/four")).unwrap();
/// let text = |bytes: Option<&[u8]>| String::from_utf8_lossy(bytes.unwrap_or(b"?")).into_owned();
/// let mut said = Vec::new();
/// for frames in Addresses::new(&file)?.find(&[0x1000, 0x1006])?.iter() {
///     for frame in frames {
///         said.push(format!("{} at {}:{}", text(frame.function), text(frame.file), frame.line.unwrap_or(0)));
///     }
/// }
/// assert_eq!(said, ["four at /src/four.c:2", "twice at /src/four.c:1", "four at /src/four.c:2"]);
/// # Ok(())
/// # }
/// ```
#[derive(Clone)]
pub struct Addresses<'a> {
    file: &'a [u8],
    located: Vec<Located>,
    frames: Vec<FrameRow>,
    text: Vec<u8>,
}

/// The frames at each of the addresses that were asked for, in their order.
#[derive(Clone, Copy)]
pub struct Found<'f> {
    located: &'f [Located],
    frames: &'f [FrameRow],
    text: &'f [u8],
}

/// A function that has an address, and a place in it: of the innermost function that of the address, and of each other
/// one the call of the function before it. What is not known is None.
#[derive(Clone, Copy, PartialEq, Eq)]
pub struct Frame<'f> {
    /// The bytes of the function's name: of its linkage name, if it has one. An empty name is None too.
    pub function: Option<&'f [u8]>,
    /// The bytes of the path of the source file.
    pub file: Option<&'f [u8]>,
    /// The line.
    pub line: Option<u64>,
    /// The column.
    pub column: Option<u64>,
    /// The row of the function's entry, which `Table::entry` takes.
    pub entry: Option<u32>,
    /// The row of the unit in `Table::units`.
    pub unit: u32,
}

impl<'a> Addresses<'a> {
    /// A sound file. Any other gives its fault.
    pub fn new(file: &'a [u8]) -> Result<Addresses<'a>, Error> {
        let mut addresses = Addresses { file, located: Vec::new(), frames: Vec::new(), text: Vec::new() };
        addresses.find(&[])?;
        Ok(addresses)
    }

    /// The frames at an address, the innermost first. The only error is `NoMemory`.
    pub fn frames(&mut self, address: u64) -> Result<impl ExactSizeIterator<Item = Frame<'_>>, Error> {
        Ok(self.find(&[address])?.frames(0))
    }

    /// The frames at each of these addresses. The only error is `NoMemory`.
    ///
    /// The memory for them is kept, so that the library is called once, or twice if there are more than ever before.
    pub fn find(&mut self, addresses: &[u64]) -> Result<Found<'_>, Error> {
        // Twice what programs of C++ and Rust need. In all, these take at most 1 GiB, and what is not written is not
        // touched.
        let count = addresses.len() as u64;
        let mut counts = FrameCounts { frames: (12 * count).min(9_000_000), text: (2_400 * count).min(500_000_000) };
        let mut is_guess = true;
        loop {
            let mut raw = Raw::default();
            match if self.reserve(addresses.len(), &counts) { self.call(addresses, &mut counts, &mut raw) } else { 4 } {
                0 => {
                    // SAFETY: a call that returns DWV_SOUND had room for so many of each, and wrote them.
                    unsafe {
                        self.located.set_len(addresses.len());
                        self.frames.set_len(counts.frames as usize);
                        self.text.set_len(counts.text as usize);
                    }
                    return Ok(Found { located: &self.located, frames: &self.frames, text: &self.text });
                }
                1 => return Err(Error::Fault(raw.fault())),
                4 if is_guess => counts = FrameCounts::default(),
                4 => return Err(Error::NoMemory),
                _ => {}
            }
            is_guess = false;
        }
    }

    /// Whether there is memory for the frames at so many addresses. What was there is no more.
    fn reserve(&mut self, addresses: usize, counts: &FrameCounts) -> bool {
        self.located.clear();
        self.frames.clear();
        self.text.clear();
        self.located.try_reserve_exact(addresses).is_ok()
            && self.frames.try_reserve_exact(counts.frames as usize).is_ok()
            && self.text.try_reserve_exact(counts.text as usize).is_ok()
    }

    fn call(&mut self, addresses: &[u64], counts: &mut FrameCounts, raw: &mut Raw) -> u32 {
        // SAFETY: as in `Table::of`.
        unsafe {
            dwv_frames(
                self.file.as_ptr(),
                self.file.len(),
                addresses.as_ptr(),
                addresses.len(),
                self.located.as_mut_ptr(),
                self.located.capacity(),
                self.frames.as_mut_ptr(),
                self.frames.capacity(),
                self.text.as_mut_ptr(),
                self.text.capacity(),
                counts,
                raw,
            )
        }
    }
}

impl<'f> Found<'f> {
    /// How many addresses there are.
    pub fn len(self) -> usize {
        self.located.len()
    }

    /// Whether there are none.
    pub fn is_empty(self) -> bool {
        self.located.is_empty()
    }

    /// The frames at the address with a number, the innermost first. It panics if there are fewer addresses.
    pub fn frames(self, number: usize) -> impl ExactSizeIterator<Item = Frame<'f>> {
        let Located { first, frames } = self.located[number];
        self.frames[first as usize..][..frames as usize].iter().map(move |row| self.frame(row))
    }

    /// The frames at each address in turn.
    pub fn iter(self) -> impl ExactSizeIterator<Item = impl ExactSizeIterator<Item = Frame<'f>>> {
        (0..self.len()).map(move |number| self.frames(number))
    }

    fn frame(self, row: &FrameRow) -> Frame<'f> {
        let text = |start: u64, length: u64| {
            let bytes = &self.text[start as usize..][..length as usize];
            (length > 0).then_some(bytes)
        };
        Frame {
            function: text(row.name, row.name_length),
            file: text(row.path, row.path_length),
            line: (row.line > 0).then_some(row.line),
            column: (row.column > 0).then_some(row.column),
            entry: (row.function != u32::MAX).then_some(row.function),
            unit: row.unit,
        }
    }
}

/// How long the file is, and not its bytes.
impl fmt::Debug for Addresses<'_> {
    fn fmt(&self, f: &mut fmt::Formatter<'_>) -> fmt::Result {
        f.debug_struct("Addresses").field("file", &self.file.len()).finish()
    }
}

/// How many addresses, frames and bytes of names and paths there are.
impl fmt::Debug for Found<'_> {
    fn fmt(&self, f: &mut fmt::Formatter<'_>) -> fmt::Result {
        f.debug_struct("Found")
            .field("addresses", &self.located.len())
            .field("frames", &self.frames.len())
            .field("text", &self.text.len())
            .finish()
    }
}

/// Name and path as text.
impl fmt::Debug for Frame<'_> {
    fn fmt(&self, f: &mut fmt::Formatter<'_>) -> fmt::Result {
        f.debug_struct("Frame")
            .field("function", &self.function.map(String::from_utf8_lossy))
            .field("file", &self.file.map(String::from_utf8_lossy))
            .field("line", &self.line)
            .field("column", &self.column)
            .field("entry", &self.entry)
            .field("unit", &self.unit)
            .finish()
    }
}
