//! The rows that the library writes, and the calls that write them.
use crate::{table::Unit, Raw};

/// `struct dwv_entry` of dwv.h.
#[repr(C)]
#[derive(Clone, Copy, Debug)]
pub(crate) struct EntryRow {
    pub(crate) size: u64,
    pub(crate) name: u64,
    pub(crate) offset: u32,
    pub(crate) depth: u32,
    pub(crate) tag: u32,
    pub(crate) has_size: u32,
    pub(crate) name_length: u32,
    pub(crate) name_section: u32,
    pub(crate) first_value: u64,
    pub(crate) values: u32,
    pub(crate) unit: u32,
    pub(crate) parent: u32,
    pub(crate) next_sibling: u32,
}

/// `struct dwv_value` of dwv.h.
#[repr(C)]
#[derive(Clone, Copy, Debug)]
pub(crate) struct ValueRow {
    pub(crate) number: u64,
    pub(crate) length: u32,
    pub(crate) section: u32,
    pub(crate) entry: u32,
    pub(crate) attribute: u32,
    pub(crate) kind: u32,
    pub(crate) zero: u32,
}

/// `struct dwv_counts` of dwv.h.
#[repr(C)]
#[derive(Default)]
pub(crate) struct Counts {
    pub(crate) units: u64,
    pub(crate) entries: u64,
    pub(crate) values: u64,
}

/// `struct dwv_frame` of dwv.h.
#[repr(C)]
#[derive(Clone, Copy)]
pub(crate) struct FrameRow {
    pub(crate) line: u64,
    pub(crate) column: u64,
    pub(crate) name: u64,
    pub(crate) name_length: u64,
    pub(crate) path: u64,
    pub(crate) path_length: u64,
    pub(crate) function: u32,
    pub(crate) unit: u32,
}

/// `struct dwv_located` of dwv.h.
#[repr(C)]
#[derive(Clone, Copy)]
pub(crate) struct Located {
    pub(crate) first: u64,
    pub(crate) frames: u64,
}

/// `struct dwv_frame_counts` of dwv.h.
#[repr(C)]
#[derive(Default)]
pub(crate) struct FrameCounts {
    pub(crate) frames: u64,
    pub(crate) text: u64,
}

extern "C" {
    pub(crate) fn dwv_table(
        file: *const u8,
        length: usize,
        units: *mut Unit,
        unit_room: usize,
        entries: *mut EntryRow,
        entry_room: usize,
        values: *mut ValueRow,
        value_room: usize,
        counts: *mut Counts,
        verdict: *mut Raw,
    ) -> u32;
    pub(crate) fn dwv_table_sections(
        info: *const u8,
        info_length: usize,
        abbrev: *const u8,
        abbrev_length: usize,
        str: *const u8,
        str_length: usize,
        line_str: *const u8,
        line_str_length: usize,
        str_offsets: *const u8,
        str_offsets_length: usize,
        addr: *const u8,
        addr_length: usize,
        units: *mut Unit,
        unit_room: usize,
        entries: *mut EntryRow,
        entry_room: usize,
        values: *mut ValueRow,
        value_room: usize,
        counts: *mut Counts,
        verdict: *mut Raw,
    ) -> u32;
    pub(crate) fn dwv_frames(
        file: *const u8,
        length: usize,
        addresses: *const u64,
        address_count: usize,
        located: *mut Located,
        located_room: usize,
        frames: *mut FrameRow,
        frame_room: usize,
        text: *mut u8,
        text_room: usize,
        counts: *mut FrameCounts,
        verdict: *mut Raw,
    ) -> u32;
}
