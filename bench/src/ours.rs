//! Calls that the Rust original has not, each as the plainest good Rust over the original's recorder, to be timed beside the library's; those
//! of the line index are over the three lists of a recording, which they check as the library does, and the page of cells and the tally sheet
//! are over bytes.
use std::io::Result as Io;
use std::ops::Range;

use bstr::ByteSlice as _;
use oracle::original::{self, FormatRecorder, Formatter};
use oracle::{Kind, Lists};
use unicode_width::UnicodeWidthChar as _;

use crate::recordings::fault;
use crate::room::LIMITS;

/// Writes the content with each tab replaced by spaces up to the next stop. In one pass: characters are read beside the replay, since an
/// entry may stand inside of one, and what lies between two tabs is written at once. (`char_indices`, which the original reads with, would
/// have to keep a character from one piece to the next; that is slower.)
pub fn write_tabs_expanded(formatter: &mut dyn Formatter, recorded_content: &FormatRecorder, stop: usize) -> Io<()> {
    const SPACES: [u8; 64] = [b' '; 64];
    let data = recorded_content.data();
    let (mut at, mut column) = (0, 0);
    recorded_content.replay_with(formatter, |formatter, range| {
        let mut written = range.start;
        while at < range.end {
            let (c, size) = bstr::decode_utf8(&data[at..]);
            match c {
                Some('\t') => {
                    let count = stop - column % stop;
                    formatter.write_all(&data[written..at])?;
                    formatter.write_all(&SPACES[..count])?;
                    written = at + size;
                    column += count;
                }
                Some('\n') => column = 0,
                Some(c) => column += c.width().unwrap_or(0),
                // U+FFFD
                None => column += 1,
            }
            at += size;
        }
        formatter.write_all(&data[written..range.end])
    })
}

/// Writes the content without the prefix at every line that is not empty, once all lines are known to begin with it; gives back 0, or the
/// number of its refusal. Lines are found as in the original's indenting, byte by byte.
pub fn write_unindented(formatter: &mut dyn Formatter, recorded_content: &FormatRecorder, prefix: &[u8]) -> Io<u64> {
    unindented(formatter, recorded_content, prefix, |data| data.split_inclusive(|&c| c == b'\n'))
}

/// The same with lines found by `memchr`, which takes 32 bytes at a time where the processor has AVX2.
pub fn write_unindented_by_memchr(formatter: &mut dyn Formatter, recorded_content: &FormatRecorder, prefix: &[u8]) -> Io<u64> {
    unindented(formatter, recorded_content, prefix, |data| data.lines_with_terminator())
}

/// `lines` cuts a text behind each 0A. What the replay hands over may begin and end inside of a prefix.
fn unindented<'a, L: Iterator<Item = &'a [u8]>>(
    formatter: &mut dyn Formatter,
    recorded_content: &'a FormatRecorder,
    prefix: &[u8],
    lines: impl Fn(&'a [u8]) -> L,
) -> Io<u64> {
    let data = recorded_content.data();
    if prefix.contains(&b'\n') {
        return Ok(32);
    }
    if !lines(data).all(|line| line == b"\n" || line.starts_with(prefix)) {
        return Ok(33);
    }
    // How many of the prefix's bytes are still to go.
    let mut left = 0;
    let mut new_line = true;
    recorded_content.replay_with(formatter, |formatter, range| {
        for line in lines(&data[range]) {
            if new_line && line != b"\n" {
                left = prefix.len();
            }
            let gone = left.min(line.len());
            formatter.write_all(&line[gone..])?;
            left -= gone;
            new_line = line.ends_with(b"\n");
        }
        Ok(())
    })?;
    Ok(0)
}

/// The labels that are open, by whether each is the one that hides, and how many of them are.
struct Open<'a> {
    label: &'a [u8],
    labels: Vec<bool>,
    hiding: usize,
}

impl<'a> Open<'a> {
    fn new(label: &'a [u8]) -> Self {
        Self { label, labels: vec![], hiding: 0 }
    }

    /// Passes an entry; false if it is a pop that has nothing to close.
    fn pass(&mut self, kind: Kind, text: &[u8]) -> bool {
        match kind {
            Kind::Push => {
                self.labels.push(text == self.label);
                self.hiding += (text == self.label) as usize;
            }
            Kind::Pop => match self.labels.pop() {
                Some(hides) => self.hiding -= hides as usize,
                None => return false,
            },
            Kind::Raw => {}
        }
        true
    }
}

/// Refusal 34: whether it is no label of a reader.
fn no_label(label: &[u8]) -> bool {
    label.is_empty() || std::str::from_utf8(label).is_err()
}

/// Writes what the office reads; gives back 0, or the number of its refusal.
pub fn write_for_office(formatter: &mut dyn Formatter, recorded_content: &FormatRecorder, label: &[u8]) -> Io<u64> {
    if no_label(label) {
        return Ok(34);
    }
    let mut open = 0usize;
    for (_, kind, _) in recorded_content.entries() {
        match kind {
            Kind::Push => open += 1,
            Kind::Pop if open == 0 => return Ok(35),
            Kind::Pop => open -= 1,
            Kind::Raw => {}
        }
    }
    if open > 0 {
        return Ok(35);
    }
    recorded_content.replay(formatter).map(|()| 0)
}

/// The stretches of data under the label; none if the recording is unbalanced.
fn hidden(recorded_content: &FormatRecorder, label: &[u8]) -> Option<Vec<Range<usize>>> {
    let (mut open, mut stretches, mut at) = (Open::new(label), vec![], 0);
    for (position, kind, text) in recorded_content.entries() {
        if open.hiding > 0 && at < position {
            stretches.push(at..position);
        }
        at = position;
        if !open.pass(kind, text) {
            return None;
        }
    }
    open.labels.is_empty().then_some(stretches)
}

/// What is still to be written of the floor's data: kept bytes up to a place, or stars.
struct Floor<'a> {
    data: &'a [u8],
    /// All data before it is written or replaced.
    written: usize,
    stars: usize,
}

impl Floor<'_> {
    /// Writes the stars, and the kept bytes up to `end`.
    fn flush(&mut self, formatter: &mut dyn Formatter, end: usize) -> Io<()> {
        const STARS: [u8; 64] = [b'*'; 64];
        while self.stars > 0 {
            let count = self.stars.min(STARS.len());
            formatter.write_all(&STARS[..count])?;
            self.stars -= count;
        }
        if self.written < end {
            formatter.write_all(&self.data[self.written..end])?;
            self.written = end;
        }
        Ok(())
    }

    /// Replaces the character at `at`, of which the bytes before are kept, unless it is a 0A; gives back its end.
    fn replace(&mut self, formatter: &mut dyn Formatter, at: usize) -> Io<usize> {
        let (c, size) = bstr::decode_utf8(&self.data[at..]);
        if c != Some('\n') {
            if self.written < at {
                self.flush(formatter, at)?;
            }
            // U+FFFD has one column.
            self.stars += c.map_or(1, |c| c.width().unwrap_or(0));
            self.written = at + size;
        }
        Ok(at + size)
    }
}

/// Writes what the floor reads: for each character with any byte under the label its width in stars, and no raw sequence under the label.
/// Gives back 0, or the number of its refusal. Every character is read, as the original does in wrapping and cutting.
pub fn write_for_floor(formatter: &mut dyn Formatter, recorded_content: &FormatRecorder, label: &[u8]) -> Io<u64> {
    floor(formatter, recorded_content, label, |data, mut at, start| {
        while at < start {
            let size = bstr::decode_utf8(&data[at..]).1;
            if at + size > start {
                break;
            }
            at += size;
        }
        at
    })
}

/// The same without reading what is under no label: the character at a place is found by looking back, since each byte that continues no
/// other begins a character, and one has at most four.
pub fn write_for_floor_by_pieces(formatter: &mut dyn Formatter, recorded_content: &FormatRecorder, label: &[u8]) -> Io<u64> {
    floor(formatter, recorded_content, label, |data, at, start| {
        let back = (at.max(start.saturating_sub(3))..start).rev().find(|i| data[*i] & 0xC0 != 0x80);
        match back {
            Some(lead) if data[start] & 0xC0 == 0x80 && lead + bstr::decode_utf8(&data[lead..]).1 > start => lead,
            _ => start,
        }
    })
}

/// `first` gives the beginning of the character that the byte at a place is of, from the beginning of one at or before it.
fn floor(
    formatter: &mut dyn Formatter,
    recorded_content: &FormatRecorder,
    label: &[u8],
    first: impl Fn(&[u8], usize, usize) -> usize,
) -> Io<u64> {
    if no_label(label) {
        return Ok(34);
    }
    let Some(stretches) = hidden(recorded_content, label) else {
        return Ok(35);
    };
    let data = recorded_content.data();
    let (mut open, mut floor) = (Open::new(label), Floor { data, written: 0, stars: 0 });
    let mut stretches = stretches.into_iter();
    let mut stretch = stretches.next();
    // The beginning of a character: all before it is read.
    let mut at = 0;
    for (position, kind, text) in recorded_content.entries() {
        // Characters that begin before the entry and have a byte under the label.
        while let Some(s) = &stretch {
            at = first(data, at, s.start.max(at));
            if at >= position {
                break;
            }
            at = floor.replace(formatter, at)?;
            while stretch.as_ref().is_some_and(|s| s.end <= at) {
                stretch = stretches.next();
            }
        }
        floor.flush(formatter, position)?;
        open.pass(kind, text);
        match kind {
            // SAFETY: a recorder's label is a `String`.
            Kind::Push => formatter.push_label(unsafe { std::str::from_utf8_unchecked(text) }),
            Kind::Pop => formatter.pop_label(),
            Kind::Raw if open.hiding == 0 => formatter.raw()?.write_all(text)?,
            Kind::Raw => {}
        }
    }
    floor.flush(formatter, data.len())?;
    Ok(0)
}

/// How the 0A of a text are found.
pub trait Newlines {
    /// The place after each 0A.
    fn behind(data: &[u8]) -> impl Iterator<Item = usize>;
}

/// Byte by byte.
pub struct ByByte;

impl Newlines for ByByte {
    fn behind(data: &[u8]) -> impl Iterator<Item = usize> {
        data.iter().enumerate().filter(|(_, byte)| **byte == b'\n').map(|(at, _)| at + 1)
    }
}

/// By `memchr`, which takes 32 bytes at a time where the processor has AVX2.
pub struct ByMemchr;

impl Newlines for ByMemchr {
    fn behind(data: &[u8]) -> impl Iterator<Item = usize> {
        let mut at = 0;
        std::iter::from_fn(move || {
            at += data[at..].find_byte(b'\n')? + 1;
            Some(at)
        })
    }
}

/// The data of a content that is a recording; otherwise the number of its refusal.
fn checked(content: &Lists) -> Result<&[u8], u64> {
    match fault(content) {
        0 => Ok(&content.data),
        number => Err(number),
    }
}

/// Whether the list is the index of the data.
fn is_index<N: Newlines>(data: &[u8], index: &[u32]) -> bool {
    match index.split_first() {
        Some((0, rest)) => rest.iter().map(|at| *at as usize).eq(N::behind(data)),
        _ => false,
    }
}

/// Puts the starts of the lines behind `earlier` after the first `used` numbers, if they fit; gives back how many there are then. A list
/// with a number for each byte surely has room, so that nothing needs to be counted.
fn put_starts<N: Newlines>(data: &[u8], earlier: usize, index: &mut [u32], used: usize) -> Result<usize, u64> {
    let (data, index) = (&data[earlier..], &mut index[used..]);
    if index.len() < data.len() && index.len() < N::behind(data).count() {
        return Err(36);
    }
    let mut count = used;
    for (to, at) in index.iter_mut().zip(N::behind(data)) {
        *to = (earlier + at) as u32;
        count += 1;
    }
    Ok(count)
}

/// The line index of the data; gives back how many lines there are, or the number of its refusal.
pub fn build_line_index<N: Newlines>(content: &Lists, index: &mut [u32]) -> Result<usize, u64> {
    let data = checked(content)?;
    if index.is_empty() {
        return Err(36);
    }
    let count = put_starts::<N>(data, 0, index, 1)?;
    index[0] = 0;
    Ok(count)
}

/// The same for a list whose first `used` numbers are the index of the first `earlier` bytes.
pub fn extend_line_index<N: Newlines>(content: &Lists, earlier: usize, index: &mut [u32], used: usize) -> Result<usize, u64> {
    let data = checked(content)?;
    match (data.get(..earlier), index.get(..used)) {
        (Some(before), Some(held)) if is_index::<N>(before, held) => put_starts::<N>(data, earlier, index, used),
        _ => Err(36),
    }
}

/// The first byte and the end of line n.
pub fn line_at<N: Newlines>(content: &Lists, index: &[u32], n: usize) -> Result<(usize, usize), u64> {
    let data = checked(content)?;
    if !is_index::<N>(data, index) {
        return Err(36);
    }
    let first = *index.get(n).ok_or(37u64)?;
    Ok((first as usize, index.get(n + 1).map_or(data.len(), |next| *next as usize - 1)))
}

/// The line and the byte column of an offset.
pub fn place_of<N: Newlines>(content: &Lists, index: &[u32], offset: usize) -> Result<(usize, usize), u64> {
    let data = checked(content)?;
    if !is_index::<N>(data, index) {
        return Err(36);
    }
    if offset > data.len() {
        return Err(37);
    }
    let line = index.partition_point(|start| *start as usize <= offset) - 1;
    Ok((line, offset - index[line] as usize))
}

/// The most cells of one call (document 02, Q-9).
const MOST_CELLS: usize = 64;

/// Refusal 38: whether these are no part ends of so many bytes.
fn wrong_ends(ends: &[u32], len: usize) -> bool {
    ends.len() > MOST_CELLS || !ends.is_sorted() || ends.last().map_or(0, |end| *end as usize) != len
}

/// The cells, each from the end before it.
fn parts<'a>(content: &'a [u8], ends: &'a [u32]) -> impl Iterator<Item = &'a [u8]> {
    let mut from = 0;
    ends.iter().map(move |end| {
        let cell = &content[from..*end as usize];
        from = *end as usize;
        cell
    })
}

/// The ellipsis, measured once for all cells.
struct Mark<'a> {
    /// What is kept of it, and its width.
    kept: &'a [u8],
    width: usize,
    /// The width that a cell has before it.
    room: usize,
    max: usize,
}

impl<'a> Mark<'a> {
    fn new(ellipsis: &'a [u8], max: usize) -> Self {
        let all: usize = ellipsis.char_indices().map(|(_, _, c)| c.width().unwrap_or(0)).sum();
        let (end, width) = original::truncate_end_pos_bytes(ellipsis, max);
        Self { kept: &ellipsis[..end], width, room: max.saturating_sub(all), max }
    }

    /// What is left of a cell, in one pass that ends where the cell is too wide: its bytes, the ellipsis or none, and the width of both.
    fn cut<'b>(&self, cell: &'b [u8]) -> (&'b [u8], &'a [u8], usize) {
        let (mut width, mut end, mut before) = (0, 0, 0);
        for (_, behind, c) in cell.char_indices() {
            width += c.width().unwrap_or(0);
            if width > self.max {
                return (&cell[..end], self.kept, before + self.width);
            }
            if width <= self.room {
                (end, before) = (behind, width);
            }
        }
        (cell, &[], width)
    }
}

/// Cuts the cells and joins them in `out`, `list` gets end and width of each; gives back the length, or the number of its refusal. Where each
/// cell has room for all of its bytes and the ellipsis, nothing needs to be measured first.
pub fn write_truncated_cells(content: &[u8], ends: &[u32], ellipsis: &[u8], max: u32, out: &mut [u8], list: &mut [u32]) -> Result<usize, u64> {
    if content.len() > LIMITS.0 || ellipsis.len() > LIMITS.0 {
        return Err(1);
    }
    if wrong_ends(ends, content.len()) {
        return Err(38);
    }
    let mark = Mark::new(ellipsis, max as usize);
    if content.len() + ends.len() * mark.kept.len() > out.len().min(LIMITS.0) {
        let len: usize = parts(content, ends).map(|cell| mark.cut(cell)).map(|(kept, ellipsis, _)| kept.len() + ellipsis.len()).sum();
        if len > LIMITS.0 {
            return Err(9);
        }
        if len > out.len() {
            return Err(21);
        }
    }
    if list.len() < 2 * ends.len() {
        return Err(24);
    }
    let mut at = 0;
    for (cell, numbers) in parts(content, ends).zip(list.chunks_exact_mut(2)) {
        let (kept, ellipsis, width) = mark.cut(cell);
        for piece in [kept, ellipsis] {
            out[at..at + piece.len()].copy_from_slice(piece);
            at += piece.len();
        }
        numbers.copy_from_slice(&[at as u32, width as u32]);
    }
    Ok(at)
}

/// The limits of a tally sheet (document 02, Q-10).
const MOST_LINES: usize = 4096;
const MOST_COLUMNS: usize = 12;
const MOST_WIDTH: u32 = 80;

/// As many spaces as a cell may need.
const SPACES: [u8; MOST_WIDTH as usize] = [b' '; MOST_WIDTH as usize];

/// Refusal 39: whether these are no columns of two numbers each, a width and an alignment.
fn wrong_columns(columns: &[u32]) -> bool {
    let wrong = |column: &[u32]| !(1..=MOST_WIDTH).contains(&column[0]) || column[1] > 2;
    columns.is_empty() || columns.len() % 2 != 0 || columns.len() > 2 * MOST_COLUMNS || columns.chunks_exact(2).any(wrong)
}

/// The lines of an input: a 0A at its end ends the last one.
fn lines(input: &[u8]) -> impl Iterator<Item = &[u8]> {
    input.strip_suffix(b"\n").unwrap_or(input).split(|byte| *byte == b'\n')
}

fn cells(line: &[u8]) -> impl Iterator<Item = &[u8]> {
    line.split(|byte| *byte == b',')
}

/// A cell that is well-formed and has no control character.
fn clean(cell: &[u8]) -> Option<&str> {
    std::str::from_utf8(cell).ok().filter(|cell| !cell.chars().any(char::is_control))
}

/// A whole number up to 65,535 without leading zeros; `parse` takes these, and a plus.
fn boards_in(cell: &[u8]) -> Option<u64> {
    let text = std::str::from_utf8(cell).ok()?;
    let leading = text.starts_with('+') || text.len() > 1 && text.starts_with('0');
    if leading { None } else { text.parse::<u16>().ok().map(u64::from) }
}

/// What is left of a cell in a column: its bytes, the ellipsis or none, and how many spaces are missing.
fn laid(cell: &str, width: u32) -> (&str, &'static str, usize) {
    let max = width as usize;
    let (mut all, mut end, mut kept) = (0, 0, 0);
    for (at, c) in cell.char_indices() {
        all += c.width().unwrap_or(0);
        if all > max {
            return (&cell[..end], "~", max - kept - 1);
        }
        if all < max {
            (end, kept) = (at + c.len_utf8(), all);
        }
    }
    (cell, "", max - all)
}

/// What lines of an input come to if none is refused: the bytes of their rows, or 0 if nobody asks for them, and the sum of their boards.
fn checked_lines(input: &[u8], columns: &[u32], measure: bool) -> Result<(usize, u64), u64> {
    let (mut len, mut sum, mut boards) = (0, 0, None);
    for (n, line) in lines(input).enumerate() {
        if line.iter().filter(|byte| **byte == b',').count() + 1 != columns.len() / 2 {
            return Err(41);
        }
        for (cell, column) in cells(line).zip(columns.chunks_exact(2)) {
            let cell = clean(cell).ok_or(40u64)?;
            if measure {
                let (kept, ellipsis, missing) = laid(cell, column[0]);
                len += kept.len() + ellipsis.len() + missing + 1;
            }
        }
        if n == 0 {
            boards = cells(line).position(|name| name == b"boards");
        } else if let Some(cell) = boards.and_then(|k| cells(line).nth(k)) {
            sum += boards_in(cell).ok_or(41u64)?;
        }
    }
    Ok((len, sum))
}

/// Writes the rows of lines that are fine; gives back how many bytes they take.
fn write_rows(input: &str, columns: &[u32], out: &mut [u8]) -> usize {
    let mut at = 0;
    let mut put = |piece: &[u8]| {
        out[at..at + piece.len()].copy_from_slice(piece);
        at += piece.len();
    };
    for line in input.strip_suffix('\n').unwrap_or(input).split('\n') {
        for (k, (cell, column)) in line.split(',').zip(columns.chunks_exact(2)).enumerate() {
            if k > 0 {
                put(b" ");
            }
            let (kept, ellipsis, missing) = laid(cell, column[0]);
            let before = [0, missing, missing / 2][column[1] as usize];
            put(&SPACES[..before]);
            put(kept.as_bytes());
            put(ellipsis.as_bytes());
            put(&SPACES[before..missing]);
        }
        put(b"\n");
    }
    at
}

/// The tally sheet of an input; gives back its length, or the number of its refusal. All is checked before anything is written. Where the
/// buffer surely has room, with all bytes of each cell and all spaces, nothing needs to be measured for that.
pub fn write_tally(input: &[u8], columns: &[u32], out: &mut [u8]) -> Result<usize, u64> {
    if input.len() > LIMITS.0 {
        return Err(1);
    }
    if wrong_columns(columns) {
        return Err(39);
    }
    let count = lines(input).count();
    if count > MOST_LINES {
        return Err(39);
    }
    let width: usize = columns.chunks_exact(2).map(|column| column[0] as usize).sum();
    let measure = input.len() + count * width + 16 > out.len().min(LIMITS.0);
    let (len, sum) = checked_lines(input, columns, measure)?;
    let last = format!("{} {sum}\n", count - 1);
    if len + last.len() > LIMITS.0 {
        return Err(9);
    }
    if len + last.len() > out.len() {
        return Err(21);
    }
    let input = std::str::from_utf8(input).expect("every cell is well-formed");
    let at = write_rows(input, columns, out);
    out[at..at + last.len()].copy_from_slice(last.as_bytes());
    Ok(at + last.len())
}
