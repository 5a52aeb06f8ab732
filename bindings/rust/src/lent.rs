//! One safe function for each call, over buffers that the caller lends; nothing is allocated. Borrowing keeps the buffers apart, as
//! the library asks. All of the crate's `unsafe` is here.
//!
//! After a refusal every buffer holds what it held; otherwise each holds the result from its first place on, with all beyond untouched.
//! The numbers under "Errors" are those of [`Refusal`], in the order in which they are looked for.
//!
//! ```
//! use ruszvedok::lent::{replay, Buffers, View};
//!
//! let row = View { data: b"oak", entries: &[0, 0, 1, 4, 3, 1, 0, 0], text: b"-wood" };
//! let (mut data, mut entries, mut text) = ([0; 4], [0; 8], [0; 8]);
//! let left = replay(row, Buffers { data: &mut data, entries: &mut entries, text: &mut text })?;
//! assert_eq!((left.used.data, left.used.entries, left.used.text), (3, 8, 4));
//! assert_eq!((&data, &text), (b"oak\0", b"wood\0\0\0\0"));
//! # Ok::<(), ruszvedok::Refusal>(())
//! ```
use std::ops::Range;
use std::slice::{self, ChunksExact};

use crate::refusal::Refusal;
use crate::sys;
pub use crate::sys::{Alignment, Kind, Place, CELL_NUMBERS, COLUMN_NUMBERS, LINE_NUMBERS};

/// A recording to be read.
#[derive(Clone, Copy, Debug, Default)]
pub struct View<'a> {
    /// Any bytes.
    pub data: &'a [u8],
    /// Four numbers an entry: position in the data, kind (0 push label, 1 pop label, 2 raw sequence), start and length of its text.
    pub entries: &'a [u32],
    /// Labels and raw sequences.
    pub text: &'a [u8],
}

/// Buffers for a recording that a call leaves or adds to.
#[derive(Debug, Default)]
pub struct Buffers<'a> {
    /// For the data.
    pub data: &'a mut [u8],
    /// For the entries, four numbers each.
    pub entries: &'a mut [u32],
    /// For their text.
    pub text: &'a mut [u8],
}

/// How many elements of each buffer a recording takes.
#[derive(Clone, Copy, Debug, Default, PartialEq, Eq)]
pub struct Used {
    /// Data bytes.
    pub data: usize,
    /// Entry numbers, four an entry.
    pub entries: usize,
    /// Text bytes.
    pub text: usize,
}

/// What a call left.
#[derive(Clone, Copy, Debug, Default, PartialEq, Eq)]
#[must_use]
#[non_exhaustive]
pub struct Done {
    /// How much of each buffer is the result.
    pub used: Used,
    /// The call's number: a width, a count, or 0.
    pub number: u64,
}

/// What a call answers by its five numbers.
#[inline]
fn answered([refusal, data, entries, text, number]: [u64; 5]) -> Result<Done, Refusal> {
    debug_assert!(refusal == 0 || [data, entries, text, number] == [0; 4], "a refusal comes alone");
    match Refusal::from_number(refusal) {
        None => Ok(Done { used: Used { data: data as usize, entries: entries as usize, text: text as usize }, number }),
        Some(refusal) => Err(refusal),
    }
}

/// What a question answers by its three numbers.
#[inline]
fn replied([refusal, first, second]: [u64; 3]) -> Result<(usize, usize), Refusal> {
    debug_assert!(refusal == 0 || [first, second] == [0; 2], "a refusal comes alone");
    match Refusal::from_number(refusal) {
        None => Ok((first as usize, second as usize)),
        Some(refusal) => Err(refusal),
    }
}

/// A line as a line list has it: a stretch of the text that was wrapped, and how wide it is.
#[derive(Clone, Copy, Debug, PartialEq, Eq, Hash)]
#[non_exhaustive]
pub struct Line {
    /// Its first byte.
    pub first: usize,
    /// Its end.
    pub end: usize,
    /// Its width: that of its bytes, spaces behind it left out.
    pub width: usize,
}

impl Line {
    /// The stretch as a range.
    #[must_use]
    pub fn range(self) -> Range<usize> {
        self.first..self.end
    }
}

/// The lines of a line list.
#[derive(Clone, Debug)]
pub struct Lines<'a>(ChunksExact<'a, u32>);

impl<'a> Lines<'a> {
    /// The first `count` lines of a list.
    ///
    /// # Panics
    ///
    /// If the list is shorter.
    #[must_use]
    pub fn new(list: &'a [u32], count: usize) -> Self {
        Self(list[..count * LINE_NUMBERS].chunks_exact(LINE_NUMBERS))
    }
}

impl Iterator for Lines<'_> {
    type Item = Line;

    fn next(&mut self) -> Option<Line> {
        self.0.next().map(|line| Line { first: line[0] as usize, end: line[1] as usize, width: line[2] as usize })
    }

    fn size_hint(&self) -> (usize, Option<usize>) {
        self.0.size_hint()
    }
}

impl ExactSizeIterator for Lines<'_> {}

/// A cell as a list of cells has it: a stretch of the joined result, and how wide it is.
#[derive(Clone, Copy, Debug, PartialEq, Eq, Hash)]
#[non_exhaustive]
pub struct Cell {
    /// Its first byte.
    pub first: usize,
    /// Its end.
    pub end: usize,
    /// Its width: what [`write_truncated_end`] returns for it.
    pub width: usize,
}

impl Cell {
    /// The stretch as a range.
    #[must_use]
    pub fn range(self) -> Range<usize> {
        self.first..self.end
    }
}

/// The cells of a list of cells; the list has their ends, and each starts where the one before it ends.
#[derive(Clone, Debug)]
pub struct Cells<'a> {
    list: ChunksExact<'a, u32>,
    first: usize,
}

impl<'a> Cells<'a> {
    /// The first `count` cells of a list.
    ///
    /// # Panics
    ///
    /// If the list is shorter.
    #[must_use]
    pub fn new(list: &'a [u32], count: usize) -> Self {
        Self { list: list[..count * CELL_NUMBERS].chunks_exact(CELL_NUMBERS), first: 0 }
    }
}

impl Iterator for Cells<'_> {
    type Item = Cell;

    fn next(&mut self) -> Option<Cell> {
        let numbers = self.list.next()?;
        let cell = Cell { first: self.first, end: numbers[0] as usize, width: numbers[1] as usize };
        self.first = cell.end;
        Some(cell)
    }

    fn size_hint(&self) -> (usize, Option<usize>) {
        self.list.size_hint()
    }
}

impl ExactSizeIterator for Cells<'_> {}

/// A column of a tally sheet.
#[derive(Clone, Copy, Debug, PartialEq, Eq, Hash)]
#[repr(C)]
pub struct Column {
    /// Its width, from 1 to [`MAX_COLUMN_WIDTH`](crate::MAX_COLUMN_WIDTH).
    pub width: u32,
    /// Where its cells stand.
    pub alignment: Alignment,
}

const _: () = assert!(size_of::<Column>() == COLUMN_NUMBERS * size_of::<u32>(), "a column is two numbers");

impl Column {
    /// A column whose cells stand at its start.
    #[must_use]
    pub const fn start(width: u32) -> Self {
        Self { width, alignment: Alignment::Start }
    }

    /// A column whose cells stand at its end.
    #[must_use]
    pub const fn end(width: u32) -> Self {
        Self { width, alignment: Alignment::End }
    }

    /// A column whose cells stand in its middle.
    #[must_use]
    pub const fn center(width: u32) -> Self {
        Self { width, alignment: Alignment::Center }
    }

    /// The numbers of columns, in order, as [`write_tally`] reads them.
    #[inline]
    #[must_use]
    pub const fn numbers(columns: &[Self]) -> &[u32] {
        // SAFETY: a column is two numbers in a row, which `repr(C)` and the `repr(u32)` of its alignment make it.
        unsafe { slice::from_raw_parts(columns.as_ptr().cast::<u32>(), columns.len() * COLUMN_NUMBERS) }
    }
}

/// A place in a text by its line, counted from 0.
#[derive(Clone, Copy, Debug, PartialEq, Eq, PartialOrd, Ord, Hash)]
#[non_exhaustive]
pub struct LineColumn {
    /// The line.
    pub line: usize,
    /// The bytes of the line before the place.
    pub column: usize,
}

/// A replacement: the bytes `start` to `end` of the data by the bytes `from` to `to` of the replacement text.
#[derive(Clone, Copy, Debug, PartialEq, Eq, Hash)]
#[repr(C)]
pub struct Replacement {
    /// First byte that goes.
    pub start: u32,
    /// Its end.
    pub end: u32,
    /// First byte that comes in.
    pub from: u32,
    /// Its end.
    pub to: u32,
}

/// A layout call of a list for [`run_calls`], with its second recording, or its records and their text, as ranges of two pools: start and
/// end of each.
///
/// | kind | does | width | `data`, `entries`, `text` |
/// |---|---|---|---|
/// | `TruncateStart`, `TruncateEnd` | [`write_truncated_start`], [`write_truncated_end`] | `max_width` | the ellipsis |
/// | `PadStart`, `PadEnd`, `PadCentered` | [`write_padded_start`], [`write_padded_end`], [`write_padded_centered`] | `min_width` | the fill |
/// | `Indent` | [`write_indented`] | not used | the prefix |
/// | `Wrap`, `WrapBreaking` | [`write_wrapped`], without and with `break_words` | `width` | not used |
/// | `Replace` | [`write_replaced`] | not used | `data` is the new text, `entries` the records, four numbers each; `text` is not used |
/// | `ExpandTabs` | [`write_tabs_expanded`] | `stop` | not used |
/// | `Unindent` | [`write_unindented`] | not used | the prefix |
///
/// Ranges that are not used still have to be within their pools.
#[derive(Clone, Copy, Debug, PartialEq, Eq, Hash)]
#[repr(C)]
pub struct Call {
    /// What it does.
    pub kind: Kind,
    /// Its width, or its stop.
    pub width: u32,
    /// A range of the pool of bytes.
    pub data: [u32; 2],
    /// A range of the pool of numbers.
    pub entries: [u32; 2],
    /// A range of the pool of bytes.
    pub text: [u32; 2],
}

/// How many numbers a call is.
const CALL_NUMBERS: usize = size_of::<Call>() / size_of::<u32>();
const _: () = assert!(CALL_NUMBERS == 8, "a call is eight numbers");

/// The two pools that the ranges of [`Call`]s are of.
#[derive(Clone, Copy, Debug, Default)]
pub struct Pools<'a> {
    /// Data and text.
    pub bytes: &'a [u8],
    /// Entry numbers and replacement records.
    pub numbers: &'a [u32],
}

// SAFETY, for each call below: pointer and number are of one borrowed slice (or array); the library, whatever it is given, reads
// elements of these slices only, writes elements of the `&mut` ones only, and keeps no pointer.

/// A call that reads recordings and numbers and leaves a recording.
macro_rules! layout {
    ($call:ident, [$($read:ident),*], [$($other:expr),*], $out:ident $(, $lines:ident)?) => {{
        let mut res = [0; 5];
        unsafe {
            sys::$call(
                $($read.data.as_ptr(), $read.data.len(), $read.entries.as_ptr(), $read.entries.len(), $read.text.as_ptr(), $read.text.len(),)*
                $($other,)*
                $out.data.as_mut_ptr(), $out.data.len(), $out.entries.as_mut_ptr(), $out.entries.len(), $out.text.as_mut_ptr(), $out.text.len(),
                $($lines.as_mut_ptr(), $lines.len(),)?
                &mut res,
            )
        };
        answered(res)
    }};
}

/// A call that adds to a recording.
macro_rules! add {
    ($call:ident, $to:ident, $used:ident $(, $added:ident)?) => {{
        let mut res = [0; 5];
        unsafe {
            sys::$call(
                $to.data.as_mut_ptr(), $to.data.len(), $used.data, $to.entries.as_mut_ptr(), $to.entries.len(), $used.entries,
                $to.text.as_mut_ptr(), $to.text.len(), $used.text,
                $($added.as_ptr(), $added.len(),)?
                &mut res,
            )
        };
        answered(res)
    }};
}

/// The width of a text of any bytes.
#[inline]
#[must_use]
pub fn text_width(s: &[u8]) -> u64 {
    unsafe { sys::ruszvedok_text_width(s.as_ptr(), s.len()) }
}

/// Whether a text is well-formed UTF-8.
#[inline]
#[must_use]
pub fn well_formed(s: &[u8]) -> bool {
    unsafe { sys::ruszvedok_well_formed(s.as_ptr(), s.len()) }
}

/// Where the longest beginning ends that is at most `max` wide, and its width.
#[inline]
#[must_use]
pub fn truncate_end_pos(s: &[u8], max: u64) -> Place {
    unsafe { sys::ruszvedok_truncate_end_pos(s.as_ptr(), s.len(), max) }
}

/// Where the longest ending starts that is at most `max` wide, and its width.
#[inline]
#[must_use]
pub fn truncate_start_pos(s: &[u8], max: u64) -> Place {
    unsafe { sys::ruszvedok_truncate_start_pos(s.as_ptr(), s.len(), max) }
}

/// How many bytes the leading zero-width characters of a text take.
#[inline]
#[must_use]
pub fn zero_width_len(s: &[u8]) -> usize {
    unsafe { sys::ruszvedok_zero_width_len(s.as_ptr(), s.len()) }
}

/// Copies a recording; text that no entry uses is left out.
///
/// # Errors
///
/// Refusals 1 to 6, 9, 21 to 23.
#[inline]
pub fn replay(content: View, out: Buffers) -> Result<Done, Refusal> {
    layout!(ruszvedok_replay, [content], [], out)
}

/// Cuts a content wider than `max_width` at its start, the ellipsis before it; the number is the width kept.
///
/// # Errors
///
/// Refusals 1 to 6 for either recording, 9, 21 to 23.
#[inline]
pub fn write_truncated_start(content: View, ellipsis: View, max_width: u32, out: Buffers) -> Result<Done, Refusal> {
    layout!(ruszvedok_write_truncated_start, [content, ellipsis], [max_width], out)
}

/// Cuts a content wider than `max_width` at its end, the ellipsis behind it; the number is the width kept.
///
/// # Errors
///
/// Refusals 1 to 6 for either recording, 9, 21 to 23.
#[inline]
pub fn write_truncated_end(content: View, ellipsis: View, max_width: u32, out: Buffers) -> Result<Done, Refusal> {
    layout!(ruszvedok_write_truncated_end, [content, ellipsis], [max_width], out)
}

/// The fill before a content narrower than `min_width`.
///
/// # Errors
///
/// Refusals 1 to 6 for either recording, 9, 21 to 23.
#[inline]
pub fn write_padded_start(content: View, fill: View, min_width: u32, out: Buffers) -> Result<Done, Refusal> {
    layout!(ruszvedok_write_padded_start, [content, fill], [min_width], out)
}

/// The fill behind a content narrower than `min_width`.
///
/// # Errors
///
/// Refusals 1 to 6 for either recording, 9, 21 to 23.
#[inline]
pub fn write_padded_end(content: View, fill: View, min_width: u32, out: Buffers) -> Result<Done, Refusal> {
    layout!(ruszvedok_write_padded_end, [content, fill], [min_width], out)
}

/// Half of the fill, rounded down, before a content narrower than `min_width`, the rest behind it.
///
/// # Errors
///
/// Refusals 1 to 6 for either recording, 9, 21 to 23.
#[inline]
pub fn write_padded_centered(content: View, fill: View, min_width: u32, out: Buffers) -> Result<Done, Refusal> {
    layout!(ruszvedok_write_padded_centered, [content, fill], [min_width], out)
}

/// The prefix before every line that is not empty.
///
/// # Errors
///
/// Refusals 1 to 6 for either recording, 9, 21 to 23.
#[inline]
pub fn write_indented(content: View, prefix: View, out: Buffers) -> Result<Done, Refusal> {
    layout!(ruszvedok_write_indented, [content, prefix], [], out)
}

/// Every line that is not empty without the prefix's bytes, with which it has to begin. The entries among them stay, before what is left of
/// the line; those of the prefix play no part.
///
/// # Errors
///
/// Refusals 1 to 6 for either recording, 32, 33, 9, 21 to 23.
#[inline]
pub fn write_unindented(content: View, prefix: View, out: Buffers) -> Result<Done, Refusal> {
    layout!(ruszvedok_write_unindented, [content, prefix], [], out)
}

/// The lines of a text, first byte, end and width of each; the number is how many. [`Lines`] reads the list.
///
/// ```
/// use ruszvedok::lent::{wrap_bytes, Lines, LINE_NUMBERS};
///
/// let mut list = [0; 4 * LINE_NUMBERS];
/// let left = wrap_bytes(b"oak 12 ft b", 5, false, &mut list)?;
/// let widths: Vec<_> = Lines::new(&list, left.number as usize).map(|line| line.width).collect();
/// assert_eq!((&list[..9], widths), (&[0, 3, 3, 4, 9, 5, 10, 11, 1][..], vec![3, 5, 1]));
/// # Ok::<(), ruszvedok::Refusal>(())
/// ```
///
/// # Errors
///
/// Refusals 1, 24.
#[inline]
pub fn wrap_bytes(data: &[u8], width: u32, break_words: bool, lines: &mut [u32]) -> Result<Done, Refusal> {
    let mut res = [0; 5];
    unsafe { sys::ruszvedok_wrap_bytes(data.as_ptr(), data.len(), width, break_words, lines.as_mut_ptr(), lines.len(), &mut res) };
    answered(res)
}

/// A recording broken at the width, and its lines as [`wrap_bytes`] has them; the number is how many.
///
/// # Errors
///
/// Refusals 1 to 6, 9, 21 to 24.
#[inline]
pub fn write_wrapped(content: View, width: u32, break_words: bool, out: Buffers, lines: &mut [u32]) -> Result<Done, Refusal> {
    layout!(ruszvedok_write_wrapped, [content], [width, break_words], out, lines)
}

/// The stretch of each record by its part of `new`.
///
/// # Errors
///
/// Refusals 1 to 6, 8, 9, 21 to 23.
#[inline]
pub fn write_replaced(content: View, records: &[Replacement], new: &[u8], out: Buffers) -> Result<Done, Refusal> {
    // A record is four numbers in a row, which `repr(C)` makes it.
    let (numbers, count) = (records.as_ptr().cast::<u32>(), records.len() * 4);
    layout!(ruszvedok_write_replaced, [content], [numbers, count, new.as_ptr(), new.len()], out)
}

/// Each byte 09 by spaces up to the next stop, under the tab's labels. Stops are `stop` columns apart, from 1 to 64; a tab's column is the
/// width since the last 0A, with the spaces of tabs before it.
///
/// # Errors
///
/// Refusals 1 to 6, 31, 9, 21 to 23.
#[inline]
pub fn write_tabs_expanded(content: View, stop: u32, out: Buffers) -> Result<Done, Refusal> {
    layout!(ruszvedok_write_tabs_expanded, [content], [stop], out)
}

/// What the office reads of a recording: all of it, as [`replay`] leaves it. The label is the one that hides from the floor.
///
/// # Errors
///
/// Refusals 1 to 6, 34, 35, 9, 21 to 23.
#[inline]
pub fn write_for_office(content: View, label: &[u8], out: Buffers) -> Result<Done, Refusal> {
    layout!(ruszvedok_write_for_office, [content], [label.as_ptr(), label.len()], out)
}

/// What the floor reads of a recording: instead of each character with any byte under the label as many `*` as it is wide, under the
/// labels of its first byte; 0A stays. Raw sequences placed under the label are dropped, and an entry inside a character so replaced
/// comes after its stars.
///
/// # Errors
///
/// Refusals 1 to 6, 34, 35, 9, 21 to 23.
#[inline]
pub fn write_for_floor(content: View, label: &[u8], out: Buffers) -> Result<Done, Refusal> {
    layout!(ruszvedok_write_for_floor, [content], [label.as_ptr(), label.len()], out)
}

/// The line index of the data: 0, and the place after each 0A; the number is how many lines there are. Data of n bytes has at most n + 1.
///
/// ```
/// use ruszvedok::lent::{build_line_index, extend_line_index, line_at, place_of, View};
///
/// let rows = |data| View { data, ..View::default() };
/// let mut list = [7; 4];
/// assert_eq!(build_line_index(rows(b"a\nb"), &mut list)?.number, 2);
/// assert_eq!(extend_line_index(rows(b"a\nbb\n"), 3, &mut list, 2)?.number, 3);
/// assert_eq!(list, [0, 2, 5, 7]);
/// assert_eq!(line_at(rows(b"a\nbb\n"), &list[..3], 1)?, 2..4);
/// let at = place_of(rows(b"a\nbb\n"), &list[..3], 4)?;
/// assert_eq!((at.line, at.column), (1, 2));
/// # Ok::<(), ruszvedok::Refusal>(())
/// ```
///
/// # Errors
///
/// Refusals 1 to 6, 36 for a list that is too short.
#[inline]
pub fn build_line_index(content: View, index: &mut [u32]) -> Result<Done, Refusal> {
    let mut res = [0; 5];
    let (d, e, t) = (content.data, content.entries, content.text);
    unsafe {
        sys::ruszvedok_build_line_index(
            d.as_ptr(), d.len(), e.as_ptr(), e.len(), t.as_ptr(), t.len(), index.as_mut_ptr(), index.len(), &mut res,
        )
    };
    answered(res)
}

/// The line index of the data after an append, in a list whose first `used` numbers are that of the first `earlier` bytes: it leaves what
/// [`build_line_index`] leaves.
///
/// # Errors
///
/// Refusals 1 to 6, 36 for `used` above the list's length, `earlier` above the data's, numbers that are not that index, or a list that is
/// too short.
#[inline]
pub fn extend_line_index(content: View, earlier: usize, index: &mut [u32], used: usize) -> Result<Done, Refusal> {
    let mut res = [0; 5];
    let (d, e, t) = (content.data, content.entries, content.text);
    unsafe {
        sys::ruszvedok_extend_line_index(
            d.as_ptr(), d.len(), e.as_ptr(), e.len(), t.as_ptr(), t.len(), earlier, index.as_mut_ptr(), index.len(), used, &mut res,
        )
    };
    answered(res)
}

/// Line `n`, counted from 0: from its first byte to its 0A, or to the data's end. `index` is exactly the line index of the data.
///
/// # Errors
///
/// Refusals 1 to 6, 36 for numbers that are not that index, 37 for a line that is not there.
#[inline]
pub fn line_at(content: View, index: &[u32], n: usize) -> Result<Range<usize>, Refusal> {
    let mut res = [0; 3];
    let (d, e, t) = (content.data, content.entries, content.text);
    unsafe { sys::ruszvedok_line_at(d.as_ptr(), d.len(), e.as_ptr(), e.len(), t.as_ptr(), t.len(), index.as_ptr(), index.len(), n, &mut res) };
    replied(res).map(|(first, end)| first..end)
}

/// The line and the byte column of an offset up to the data length; a 0A belongs to the line that it ends. `index` is exactly the line
/// index of the data.
///
/// # Errors
///
/// Refusals 1 to 6, 36 for numbers that are not that index, 37 for an offset beyond the data.
#[inline]
pub fn place_of(content: View, index: &[u32], offset: usize) -> Result<LineColumn, Refusal> {
    let mut res = [0; 3];
    let (d, e, t) = (content.data, content.entries, content.text);
    unsafe {
        sys::ruszvedok_place_of(d.as_ptr(), d.len(), e.as_ptr(), e.len(), t.as_ptr(), t.len(), index.as_ptr(), index.len(), offset, &mut res)
    };
    replied(res).map(|(line, column)| LineColumn { line, column })
}

/// The parts of a content that end at `ends`, each cut as [`write_truncated_end`] cuts it alone, and joined in `out`; `cells` gets two
/// numbers a cell, its end there and its width, and [`Cells`] reads it. The number is how many cells there are. Each starts at the end
/// before it, the first one at 0.
///
/// ```
/// use ruszvedok::lent::{write_truncated_cells, Cells, CELL_NUMBERS};
///
/// let (mut out, mut list) = ([0; 16], [0; 3 * CELL_NUMBERS]);
/// let left = write_truncated_cells(b"oakspruce12 ft", &[3, 9, 14], b"..", 5, &mut out, &mut list)?;
/// assert_eq!((&out[..left.used.data], list), (&b"oakspr..12 ft"[..], [3, 3, 8, 5, 13, 5]));
/// let cells: Vec<_> = Cells::new(&list, left.number as usize).map(|cell| &out[cell.range()]).collect();
/// assert_eq!(cells, [&b"oak"[..], b"spr..", b"12 ft"]);
/// # Ok::<(), ruszvedok::Refusal>(())
/// ```
///
/// # Errors
///
/// Refusals 1 for the content or the ellipsis, 38 for more than [`MAX_CELLS`](crate::MAX_CELLS) ends, ends that fall, or a last end (0
/// without cells) that is not the content's length, 9, 21, 24 for a list of cells that is too short.
#[inline]
pub fn write_truncated_cells(
    content: &[u8],
    ends: &[u32],
    ellipsis: &[u8],
    max_width: u32,
    out: &mut [u8],
    cells: &mut [u32],
) -> Result<Done, Refusal> {
    let mut res = [0; 5];
    unsafe {
        sys::ruszvedok_write_truncated_cells(
            content.as_ptr(), content.len(), ends.as_ptr(), ends.len(), ellipsis.as_ptr(), ellipsis.len(), max_width,
            out.as_mut_ptr(), out.len(), cells.as_mut_ptr(), cells.len(), &mut res,
        )
    };
    answered(res)
}

/// The tally sheet of an input, in `out`; the number is 0. The input is a line of names and lines of values in that order, with commas
/// between the cells; a line ends with 0A, which the last may lack, and an empty input is one empty line. `columns` has two numbers a column,
/// its width and its alignment, and [`Column::numbers`] makes them.
///
/// Each line is a row: its cells are cut with the ellipsis `~` as [`write_truncated_end`] cuts them, filled with spaces to the widths of their
/// columns, and joined by one space. The last row has the number of value lines and the sum of the first column called `boards` (0 without
/// one), with one space between. Rows end with 0A.
///
/// ```
/// use ruszvedok::lent::{write_tally, Column};
///
/// let columns = [Column::start(5), Column::end(6)];
/// let mut out = [0; 64];
/// let left = write_tally(b"wood,boards\noak,12\nspruce,7\n", Column::numbers(&columns), &mut out)?;
/// assert_eq!(&out[..left.used.data], b"wood  boards\noak       12\nspru~      7\n2 19\n");
/// # Ok::<(), ruszvedok::Refusal>(())
/// ```
///
/// # Errors
///
/// Refusals 1 for the input; 39 for numbers of columns that are odd, none or more than two for each of
/// [`MAX_COLUMNS`](crate::MAX_COLUMNS), a width that is 0 or over [`MAX_COLUMN_WIDTH`](crate::MAX_COLUMN_WIDTH), an unknown alignment, or
/// more than [`MAX_TALLY_LINES`](crate::MAX_TALLY_LINES) lines; then line by line 41 for another number of cells than columns, 40 for a cell
/// that is ill-formed or has a control character, and in a line of values 41 for a cell of that column that is no decimal whole number up to
/// 65,535 without leading zeros; 9, 21.
#[inline]
pub fn write_tally(input: &[u8], columns: &[u32], out: &mut [u8]) -> Result<Done, Refusal> {
    let mut res = [0; 5];
    let (i, c, o) = ((input.as_ptr(), input.len()), (columns.as_ptr(), columns.len()), (out.as_mut_ptr(), out.len()));
    unsafe { sys::ruszvedok_write_tally(i.0, i.1, c.0, c.1, o.0, o.1, &mut res) };
    answered(res)
}

/// All calls of a list, each on what the last one not refused left; the number is how many were not refused. The content is what `used`
/// says of `first`, and the result is left there; `other` has the same lengths. Both beyond the result, and `lines`, hold what the calls
/// left on the way. `answers` gets two numbers a call: its refusal or 0, and its number.
///
/// ```
/// use ruszvedok::lent::{run_calls, Buffers, Call, Kind, Pools, Used};
///
/// let pools = Pools { bytes: b"...", numbers: &[] };
/// let none = [0, 0];
/// let calls = [
///     Call { kind: Kind::TruncateEnd, width: 4, data: [0, 2], entries: none, text: none },
///     Call { kind: Kind::PadCentered, width: 8, data: [2, 3], entries: none, text: none },
/// ];
/// let (mut data, mut other, mut answers) = (*b"spruce  ", [0; 8], [[7; 2]; 2]);
/// let first = Buffers { data: &mut data, ..Buffers::default() };
/// let second = Buffers { data: &mut other, ..Buffers::default() };
/// let used = Used { data: 6, ..Used::default() };
/// let left = run_calls(&calls, pools, used, first, second, &mut [], &mut answers)?;
/// assert_eq!((left.used.data, left.number), (8, 2));
/// assert_eq!((&data, answers), (b"..sp....", [[0, 4], [0, 0]]));
/// # Ok::<(), ruszvedok::Refusal>(())
/// ```
///
/// # Errors
///
/// Refusals 10, 61 to 63: of the list, none of whose calls is run then.
#[inline]
pub fn run_calls(
    calls: &[Call],
    pools: Pools,
    used: Used,
    first: Buffers,
    other: Buffers,
    lines: &mut [u32],
    answers: &mut [[u64; 2]],
) -> Result<Done, Refusal> {
    let mut res = [0; 5];
    let answers = answers.as_flattened_mut();
    // A call is eight numbers in a row, which `repr(C)` makes it.
    unsafe {
        sys::ruszvedok_run_calls(
            calls.as_ptr().cast::<u32>(), calls.len() * CALL_NUMBERS, pools.bytes.as_ptr(), pools.bytes.len(),
            pools.numbers.as_ptr(), pools.numbers.len(), used.data, used.entries, used.text,
            first.data.as_mut_ptr(), first.data.len(), first.entries.as_mut_ptr(), first.entries.len(),
            first.text.as_mut_ptr(), first.text.len(), other.data.as_mut_ptr(), other.data.len(),
            other.entries.as_mut_ptr(), other.entries.len(), other.text.as_mut_ptr(), other.text.len(),
            lines.as_mut_ptr(), lines.len(), answers.as_mut_ptr(), answers.len(), &mut res,
        )
    };
    answered(res)
}

/// A text shortened at its start; the number is its width.
///
/// # Errors
///
/// Refusals 1, 7, 9, 21.
#[inline]
pub fn elide_start(text: &[u8], ellipsis: &[u8], max_width: u32, out: &mut [u8]) -> Result<Done, Refusal> {
    let mut res = [0; 5];
    let (t, e, o) = ((text.as_ptr(), text.len()), (ellipsis.as_ptr(), ellipsis.len()), (out.as_mut_ptr(), out.len()));
    unsafe { sys::ruszvedok_elide_start(t.0, t.1, e.0, e.1, max_width, o.0, o.1, &mut res) };
    answered(res)
}

/// A text shortened at its end; the number is its width.
///
/// # Errors
///
/// Refusals 1, 7, 9, 21.
#[inline]
pub fn elide_end(text: &[u8], ellipsis: &[u8], max_width: u32, out: &mut [u8]) -> Result<Done, Refusal> {
    let mut res = [0; 5];
    let (t, e, o) = ((text.as_ptr(), text.len()), (ellipsis.as_ptr(), ellipsis.len()), (out.as_mut_ptr(), out.len()));
    unsafe { sys::ruszvedok_elide_end(t.0, t.1, e.0, e.1, max_width, o.0, o.1, &mut res) };
    answered(res)
}

/// A text with a newline at its end, unless it is empty.
///
/// # Errors
///
/// Refusals 1, 7, 9, 21.
#[inline]
pub fn complete_newline(text: &[u8], out: &mut [u8]) -> Result<Done, Refusal> {
    let mut res = [0; 5];
    unsafe { sys::ruszvedok_complete_newline(text.as_ptr(), text.len(), out.as_mut_ptr(), out.len(), &mut res) };
    answered(res)
}

/// Appends data to the recording that takes `used` of the buffers.
///
/// # Errors
///
/// Refusals 10, 1 to 6, 9, 21.
#[inline]
pub fn write(to: Buffers, used: Used, added: &[u8]) -> Result<Done, Refusal> {
    add!(ruszvedok_write, to, used, added)
}

/// Pushes a label at the current end. It takes the part of the first push with equal text, if there is one, and then adds no text.
///
/// # Errors
///
/// Refusals 10, 1 to 6, 6 for the label, 9, 22, 23.
#[inline]
pub fn push_label(to: Buffers, used: Used, label: &[u8]) -> Result<Done, Refusal> {
    add!(ruszvedok_push_label, to, used, label)
}

/// Pops the last label at the current end.
///
/// # Errors
///
/// Refusals 10, 1 to 6, 9, 22.
#[inline]
pub fn pop_label(to: Buffers, used: Used) -> Result<Done, Refusal> {
    add!(ruszvedok_pop_label, to, used)
}

/// Appends a raw sequence at the current end.
///
/// # Errors
///
/// Refusals 10, 1 to 6, 3 for an empty sequence, 9, 22, 23.
#[inline]
pub fn raw(to: Buffers, used: Used, sequence: &[u8]) -> Result<Done, Refusal> {
    add!(ruszvedok_raw, to, used, sequence)
}
