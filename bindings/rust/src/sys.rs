//! The exported functions as they are: a slice is a pointer and its number of elements, `res` five numbers or, of a question, three.
//! Written by tools/declarations.

/// The most data bytes of a recording; a plain text has the same limit.
pub const MAX_DATA: usize = 1_048_576;
/// The most entries of a recording.
pub const MAX_ENTRIES: usize = 4_096;
/// The most entry numbers of a recording, four an entry.
pub const MAX_ENTRY_NUMBERS: usize = 16_384;
/// The most text bytes of a recording: labels and raw sequences.
pub const MAX_TEXT: usize = 65_536;
/// How many numbers a line has in a line list: first, end and width.
pub const LINE_NUMBERS: usize = 3;
/// The most cells of one call.
pub const MAX_CELLS: usize = 64;
/// How many numbers a cell has in a list of cells: end and width.
pub const CELL_NUMBERS: usize = 2;
/// The most lines of a tally sheet's input, that of the names included.
pub const MAX_TALLY_LINES: usize = 4_096;
/// The most columns of a tally sheet; it has one at least.
pub const MAX_COLUMNS: usize = 12;
/// The most width of a column; it has one at least.
pub const MAX_COLUMN_WIDTH: usize = 80;
/// How many numbers a column of a tally sheet has: width and alignment.
pub const COLUMN_NUMBERS: usize = 2;

/// Where a cell stands in its column of a tally sheet, and so where its spaces are.
#[derive(Clone, Copy, Debug, PartialEq, Eq, Hash)]
#[repr(u32)]
pub enum Alignment {
    /// At its start: spaces after it.
    Start = 0,
    /// At its end: spaces before it.
    End = 1,
    /// Between spaces, the smaller half before it.
    Center = 2,
}

/// The kind of a call in a list.
#[derive(Clone, Copy, Debug, PartialEq, Eq, Hash)]
#[repr(u32)]
#[non_exhaustive]
pub enum Kind {
    TruncateStart = 0,
    TruncateEnd = 1,
    PadStart = 2,
    PadEnd = 3,
    PadCentered = 4,
    Indent = 5,
    Wrap = 6,
    WrapBreaking = 7,
    Replace = 8,
    ExpandTabs = 9,
    Unindent = 10,
}

/// A place in a text, and the width of the part that is kept.
#[derive(Clone, Copy, Debug, PartialEq, Eq)]
#[repr(C)]
pub struct Place {
    pub pos: usize,
    pub width: u64,
}

extern "C" {
    pub fn ruszvedok_text_width(s: *const u8, s_len: usize) -> u64;
    pub fn ruszvedok_well_formed(s: *const u8, s_len: usize) -> bool;
    pub fn ruszvedok_truncate_end_pos(s: *const u8, s_len: usize, max: u64) -> Place;
    pub fn ruszvedok_truncate_start_pos(s: *const u8, s_len: usize, max: u64) -> Place;
    pub fn ruszvedok_zero_width_len(s: *const u8, s_len: usize) -> usize;
    pub fn ruszvedok_replay(
        content: *const u8, content_len: usize, entries: *const u32, entries_len: usize, text: *const u8,
        text_len: usize, out_data: *mut u8, out_data_len: usize, out_entries: *mut u32, out_entries_len: usize,
        out_text: *mut u8, out_text_len: usize, res: *mut [u64; 5],
    );
    pub fn ruszvedok_write_truncated_start(
        content: *const u8, content_len: usize, entries: *const u32, entries_len: usize, text: *const u8,
        text_len: usize, ellipsis: *const u8, ellipsis_len: usize, ellipsis_entries: *const u32,
        ellipsis_entries_len: usize, ellipsis_text: *const u8, ellipsis_text_len: usize, max_width: u32,
        out_data: *mut u8, out_data_len: usize, out_entries: *mut u32, out_entries_len: usize, out_text: *mut u8,
        out_text_len: usize, res: *mut [u64; 5],
    );
    pub fn ruszvedok_write_truncated_end(
        content: *const u8, content_len: usize, entries: *const u32, entries_len: usize, text: *const u8,
        text_len: usize, ellipsis: *const u8, ellipsis_len: usize, ellipsis_entries: *const u32,
        ellipsis_entries_len: usize, ellipsis_text: *const u8, ellipsis_text_len: usize, max_width: u32,
        out_data: *mut u8, out_data_len: usize, out_entries: *mut u32, out_entries_len: usize, out_text: *mut u8,
        out_text_len: usize, res: *mut [u64; 5],
    );
    pub fn ruszvedok_write_padded_start(
        content: *const u8, content_len: usize, entries: *const u32, entries_len: usize, text: *const u8,
        text_len: usize, fill: *const u8, fill_len: usize, fill_entries: *const u32, fill_entries_len: usize,
        fill_text: *const u8, fill_text_len: usize, min_width: u32, out_data: *mut u8, out_data_len: usize,
        out_entries: *mut u32, out_entries_len: usize, out_text: *mut u8, out_text_len: usize, res: *mut [u64; 5],
    );
    pub fn ruszvedok_write_padded_end(
        content: *const u8, content_len: usize, entries: *const u32, entries_len: usize, text: *const u8,
        text_len: usize, fill: *const u8, fill_len: usize, fill_entries: *const u32, fill_entries_len: usize,
        fill_text: *const u8, fill_text_len: usize, min_width: u32, out_data: *mut u8, out_data_len: usize,
        out_entries: *mut u32, out_entries_len: usize, out_text: *mut u8, out_text_len: usize, res: *mut [u64; 5],
    );
    pub fn ruszvedok_write_padded_centered(
        content: *const u8, content_len: usize, entries: *const u32, entries_len: usize, text: *const u8,
        text_len: usize, fill: *const u8, fill_len: usize, fill_entries: *const u32, fill_entries_len: usize,
        fill_text: *const u8, fill_text_len: usize, min_width: u32, out_data: *mut u8, out_data_len: usize,
        out_entries: *mut u32, out_entries_len: usize, out_text: *mut u8, out_text_len: usize, res: *mut [u64; 5],
    );
    pub fn ruszvedok_write_indented(
        content: *const u8, content_len: usize, entries: *const u32, entries_len: usize, text: *const u8,
        text_len: usize, prefix: *const u8, prefix_len: usize, prefix_entries: *const u32, prefix_entries_len: usize,
        prefix_text: *const u8, prefix_text_len: usize, out_data: *mut u8, out_data_len: usize, out_entries: *mut u32,
        out_entries_len: usize, out_text: *mut u8, out_text_len: usize, res: *mut [u64; 5],
    );
    pub fn ruszvedok_write_unindented(
        content: *const u8, content_len: usize, entries: *const u32, entries_len: usize, text: *const u8,
        text_len: usize, prefix: *const u8, prefix_len: usize, prefix_entries: *const u32, prefix_entries_len: usize,
        prefix_text: *const u8, prefix_text_len: usize, out_data: *mut u8, out_data_len: usize, out_entries: *mut u32,
        out_entries_len: usize, out_text: *mut u8, out_text_len: usize, res: *mut [u64; 5],
    );
    pub fn ruszvedok_wrap_bytes(
        data: *const u8, data_len: usize, width: u32, break_words: bool, out_lines: *mut u32, out_lines_len: usize,
        res: *mut [u64; 5],
    );
    pub fn ruszvedok_write_wrapped(
        content: *const u8, content_len: usize, entries: *const u32, entries_len: usize, text: *const u8,
        text_len: usize, width: u32, break_words: bool, out_data: *mut u8, out_data_len: usize, out_entries: *mut u32,
        out_entries_len: usize, out_text: *mut u8, out_text_len: usize, out_lines: *mut u32, out_lines_len: usize,
        res: *mut [u64; 5],
    );
    pub fn ruszvedok_write_replaced(
        content: *const u8, content_len: usize, entries: *const u32, entries_len: usize, text: *const u8,
        text_len: usize, records: *const u32, records_len: usize, new_text: *const u8, new_text_len: usize,
        out_data: *mut u8, out_data_len: usize, out_entries: *mut u32, out_entries_len: usize, out_text: *mut u8,
        out_text_len: usize, res: *mut [u64; 5],
    );
    pub fn ruszvedok_write_tabs_expanded(
        content: *const u8, content_len: usize, entries: *const u32, entries_len: usize, text: *const u8,
        text_len: usize, stop: u32, out_data: *mut u8, out_data_len: usize, out_entries: *mut u32,
        out_entries_len: usize, out_text: *mut u8, out_text_len: usize, res: *mut [u64; 5],
    );
    pub fn ruszvedok_write_for_office(
        content: *const u8, content_len: usize, entries: *const u32, entries_len: usize, text: *const u8,
        text_len: usize, label: *const u8, label_len: usize, out_data: *mut u8, out_data_len: usize,
        out_entries: *mut u32, out_entries_len: usize, out_text: *mut u8, out_text_len: usize, res: *mut [u64; 5],
    );
    pub fn ruszvedok_write_for_floor(
        content: *const u8, content_len: usize, entries: *const u32, entries_len: usize, text: *const u8,
        text_len: usize, label: *const u8, label_len: usize, out_data: *mut u8, out_data_len: usize,
        out_entries: *mut u32, out_entries_len: usize, out_text: *mut u8, out_text_len: usize, res: *mut [u64; 5],
    );
    pub fn ruszvedok_build_line_index(
        content: *const u8, content_len: usize, entries: *const u32, entries_len: usize, text: *const u8,
        text_len: usize, index: *mut u32, index_len: usize, res: *mut [u64; 5],
    );
    pub fn ruszvedok_extend_line_index(
        content: *const u8, content_len: usize, entries: *const u32, entries_len: usize, text: *const u8,
        text_len: usize, earlier: usize, index: *mut u32, index_len: usize, used: usize, res: *mut [u64; 5],
    );
    pub fn ruszvedok_line_at(
        content: *const u8, content_len: usize, entries: *const u32, entries_len: usize, text: *const u8,
        text_len: usize, index: *const u32, index_len: usize, n: usize, res: *mut [u64; 3],
    );
    pub fn ruszvedok_place_of(
        content: *const u8, content_len: usize, entries: *const u32, entries_len: usize, text: *const u8,
        text_len: usize, index: *const u32, index_len: usize, offset: usize, res: *mut [u64; 3],
    );
    pub fn ruszvedok_write_truncated_cells(
        content: *const u8, content_len: usize, ends: *const u32, ends_len: usize, ellipsis: *const u8,
        ellipsis_len: usize, max_width: u32, out_data: *mut u8, out_data_len: usize, cells: *mut u32, cells_len: usize,
        res: *mut [u64; 5],
    );
    pub fn ruszvedok_write_tally(
        input: *const u8, input_len: usize, columns: *const u32, columns_len: usize, out_data: *mut u8,
        out_data_len: usize, res: *mut [u64; 5],
    );
    pub fn ruszvedok_run_calls(
        calls: *const u32, calls_len: usize, pool: *const u8, pool_len: usize, pool_numbers: *const u32,
        pool_numbers_len: usize, data_len: usize, entries_len: usize, text_len: usize, data: *mut u8, data_room: usize,
        entries: *mut u32, entries_room: usize, text: *mut u8, text_room: usize, other_data: *mut u8,
        other_data_len: usize, other_entries: *mut u32, other_entries_len: usize, other_text: *mut u8,
        other_text_len: usize, out_lines: *mut u32, out_lines_len: usize, answers: *mut u64, answers_len: usize,
        res: *mut [u64; 5],
    );
    pub fn ruszvedok_elide_start(
        text: *const u8, text_len: usize, ellipsis: *const u8, ellipsis_len: usize, max_width: u32, out_data: *mut u8,
        out_data_len: usize, res: *mut [u64; 5],
    );
    pub fn ruszvedok_elide_end(
        text: *const u8, text_len: usize, ellipsis: *const u8, ellipsis_len: usize, max_width: u32, out_data: *mut u8,
        out_data_len: usize, res: *mut [u64; 5],
    );
    pub fn ruszvedok_complete_newline(
        text: *const u8, text_len: usize, out_data: *mut u8, out_data_len: usize, res: *mut [u64; 5],
    );
    pub fn ruszvedok_write(
        content: *mut u8, content_room: usize, content_len: usize, entries: *const u32, entries_room: usize,
        entries_len: usize, text: *const u8, text_room: usize, text_len: usize, added: *const u8, added_len: usize,
        res: *mut [u64; 5],
    );
    pub fn ruszvedok_push_label(
        content: *const u8, content_room: usize, content_len: usize, entries: *mut u32, entries_room: usize,
        entries_len: usize, text: *mut u8, text_room: usize, text_len: usize, label: *const u8, label_len: usize,
        res: *mut [u64; 5],
    );
    pub fn ruszvedok_pop_label(
        content: *const u8, content_room: usize, content_len: usize, entries: *mut u32, entries_room: usize,
        entries_len: usize, text: *const u8, text_room: usize, text_len: usize, res: *mut [u64; 5],
    );
    pub fn ruszvedok_raw(
        content: *const u8, content_room: usize, content_len: usize, entries: *mut u32, entries_room: usize,
        entries_len: usize, text: *mut u8, text_room: usize, text_len: usize, sequence: *const u8, sequence_len: usize,
        res: *mut [u64; 5],
    );
}
