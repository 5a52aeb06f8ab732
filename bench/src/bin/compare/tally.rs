//! The tally sheet: the original cuts and fills each cell by itself, and ours makes all of it; the library's answer, and all of the buffer, must
//! be what both have. Most inputs are right, or wrong in one place.
use std::collections::BTreeMap;

use bench::inputs::{Numbers, clean, damaged};
use bench::ours;
use bench::recordings::Expected;
use bench::room::{LIMITS, Room};
use oracle::{Lists, Recording};
use ruszvedok::lent;
use ruszvedok::{MAX_COLUMN_WIDTH, MAX_COLUMNS, MAX_TALLY_LINES};

use crate::{lend_to, same};

/// What the call is given.
#[derive(Debug)]
struct Sheet {
    input: Vec<u8>,
    columns: Vec<u32>,
}

/// Document 02's refusals, from its words: 39 for the columns and the number of lines.
fn shape_fault(columns: &[u32], lines: usize) -> u64 {
    let outside = |column: &[u32]| column.len() != 2 || column[0] < 1 || column[0] as usize > MAX_COLUMN_WIDTH || column[1] > 2;
    let count = columns.len().div_ceil(2);
    if count < 1 || count > MAX_COLUMNS || columns.chunks(2).any(outside) || lines > MAX_TALLY_LINES { 39 } else { 0 }
}

/// Ill-formed, or with a control character.
fn is_wrong(cell: &[u8]) -> bool {
    let is_control = |c: char| matches!(c as u32, 0x00..=0x1F | 0x7F..=0x9F);
    std::str::from_utf8(cell).map_or(true, |text| text.chars().any(is_control))
}

/// A decimal whole number up to 65,535 without leading zeros.
fn boards(cell: &[u8]) -> Option<u64> {
    let digits = !cell.is_empty() && cell.len() <= 5 && cell.iter().all(u8::is_ascii_digit) && (cell == b"0" || cell[0] != b'0');
    let value = cell.iter().fold(0, |value, digit| 10 * value + u64::from(digit.wrapping_sub(b'0')) % 10);
    (digits && value <= 65_535).then_some(value)
}

/// What the original's calls leave of a cell.
fn laid(cell: &[u8], column: &[u32]) -> Vec<u8> {
    let (width, space) = (column[0] as usize, Recording::plain(b" "));
    let (cut, _) = oracle::write_truncated_end(&Recording::plain(cell), &Recording::plain(b"~"), width);
    let fill = [oracle::write_padded_end, oracle::write_padded_start, oracle::write_padded_centered][column[1] as usize];
    fill(&cut, &space, width).data
}

impl Sheet {
    /// Each ended by 0A, which the last may lack; an empty input is one empty line.
    fn lines(&self) -> Vec<&[u8]> {
        let mut lines: Vec<_> = self.input.split(|byte| *byte == b'\n').collect();
        if lines.len() > 1 && lines.last().is_some_and(|line| line.is_empty()) {
            lines.pop();
        }
        lines
    }

    /// Line by line: 41 for the number of cells, 40 cell by cell, 41 for the boards. Otherwise the sum.
    fn lines_fault(&self, lines: &[&[u8]]) -> Result<u64, u64> {
        let (mut sum, mut place) = (0, None);
        for (n, line) in lines.iter().enumerate() {
            let cells: Vec<_> = line.split(|byte| *byte == b',').collect();
            if cells.len() != self.columns.len() / 2 {
                return Err(41);
            }
            if cells.iter().any(|cell| is_wrong(cell)) {
                return Err(40);
            }
            match place {
                _ if n == 0 => place = cells.iter().position(|cell| cell == b"boards"),
                Some(k) => sum += boards(cells[k]).ok_or(41u64)?,
                None => {}
            }
        }
        Ok(sum)
    }

    /// The refusals of what is given; without any, each cell by the original's calls, in order.
    fn expected(&self) -> Expected {
        let lines = self.lines();
        let mut faults = vec![(self.input.len() > LIMITS.0) as u64, shape_fault(&self.columns, lines.len())];
        let mut data = vec![];
        if faults == [0, 0] {
            match self.lines_fault(&lines) {
                Err(number) => faults.push(number),
                Ok(sum) => {
                    for line in &lines {
                        let cells: Vec<_> = line.split(|byte| *byte == b',').zip(self.columns.chunks(2)).map(|(cell, column)| laid(cell, column)).collect();
                        data.extend(cells.join(&b' '));
                        data.push(b'\n');
                    }
                    data.extend(format!("{} {sum}\n", lines.len() - 1).into_bytes());
                }
            }
        }
        Expected { faults, result: Lists { data, ..Lists::default() }, lines: vec![], number: 0 }
    }

    /// As many bytes as are always enough, by the header's words.
    fn enough(&self) -> usize {
        let lines = self.input.iter().filter(|byte| **byte == b'\n').count() + 1;
        // A column outside the limits counts for nothing: the call is refused.
        let widths: usize = self.columns.chunks(2).map(|column| column[0] as usize).filter(|width| *width <= MAX_COLUMN_WIDTH).sum();
        self.input.len() + lines.min(MAX_TALLY_LINES) * widths + 16
    }

    /// Exactly enough, one byte short, any less, a little more, or what is always enough and a little more.
    fn size(&self, expected: &Expected, numbers: &mut Numbers) -> usize {
        let bytes = expected.result.data.len();
        match numbers.within(0, 9) {
            0..4 => bytes,
            4 => bytes.saturating_sub(1),
            5 => numbers.within(0, bytes as u64) as usize,
            6 | 7 => bytes + numbers.within(1, 9) as usize,
            8 => self.enough() - 1,
            _ => self.enough() + numbers.within(0, 9) as usize,
        }
    }

    /// The library's call and ours over a buffer of this length; gives back the number of the refusal.
    fn compare(&self, expected: &Expected, bytes: usize) -> Result<u64, String> {
        if expected.result.data.len() > self.enough() {
            return Err(format!("{} bytes are not enough on {self:x?}", self.enough()));
        }
        let mut ours = Room::of(bytes, 0, 0);
        let answer = ours::write_tally(&self.input, &self.columns, &mut ours.data);
        let (got, room) = lend_to((bytes, 0, 0, 0), expected, |room, _| lent::write_tally(&self.input, &self.columns, &mut room.data), self)?;
        let got_len = if got.refusal == 0 { Ok(got.data as usize) } else { Err(got.refusal) };
        same((answer, &ours.data), (got_len, &room.data), self)?;
        Ok(got.refusal)
    }
}

fn one_of<T: Copy>(many: &[T], numbers: &mut Numbers) -> T {
    many[numbers.within(0, many.len() as u64 - 1) as usize]
}

/// Up to five columns, or any number, mostly narrow; now and then a number is outside of its limits, or one too many or too few.
fn columns(numbers: &mut Numbers) -> Vec<u32> {
    let count = match numbers.within(0, 29) {
        0 => one_of(&[0, 11, 12, 13], numbers),
        1 => numbers.within(1, 12),
        _ => numbers.within(1, 5),
    };
    let mut made = vec![];
    for _ in 0..count {
        let width = match numbers.within(0, 9) {
            0 => numbers.within(1, 80) as u32,
            1 => one_of(&[1, 2, 79, 80], numbers),
            _ => numbers.within(1, 9) as u32,
        };
        made.extend([width, numbers.within(0, 2) as u32]);
    }
    if numbers.within(0, 24) == 0 {
        let at = numbers.within(0, made.len() as u64) as usize;
        match (numbers.within(0, 3), at < made.len()) {
            (0, true) => drop(made.remove(at)),
            (1, _) => made.insert(at, numbers.within(0, 3) as u32),
            (_, true) if at % 2 == 0 => made[at] = one_of(&[0, 80, 81, 256 + 1, u32::MAX], numbers),
            (_, true) => made[at] = one_of(&[2, 3, 256, u32::MAX], numbers),
            _ => {}
        }
    }
    made
}

/// Digits of a number of boards; one in twelve is about as many as there may be, or none.
fn boards_cell(numbers: &mut Numbers) -> Vec<u8> {
    const OTHERS: [&str; 18] = ["65536", "65540", "100000", "00", "01", "+1", "-1", "", " 1", "1 ", "x", "1x", "4294967296", "1.", "１", "1\u{301}", "1:", "1/"];
    match numbers.within(0, 23) {
        0 => one_of(&OTHERS, numbers).as_bytes().to_vec(),
        1 => one_of(&["0", "65535", "65534", "10", "9", "60000"], numbers).as_bytes().to_vec(),
        2 => numbers.within(65_530, 65_540).to_string().into_bytes(),
        3..9 => numbers.within(0, 65_535).to_string().into_bytes(),
        _ => numbers.within(0, 120).to_string().into_bytes(),
    }
}

fn cell(numbers: &mut Numbers) -> Vec<u8> {
    match numbers.within(0, 199) {
        // Bytes that may be ill-formed, controls, commas or 0A.
        0 => damaged(numbers),
        1 => one_of(&[&b"\t"[..], b"a\r", b"\x7F", b"\xC2\x80", b"\xC2\x9F", b"\xC2\xA0", b"\xE6\x9C", b"a\xFFb", b"\x1F", b" "], numbers).to_vec(),
        2..20 => vec![],
        20..60 => (0..numbers.within(1, 12)).map(|_| numbers.within(b'a' as u64, b'z' as u64) as u8).collect(),
        60..64 => (0..numbers.within(1, 99)).flat_map(|_| one_of(&["木", "e", "\u{301}", "é"], numbers).bytes()).collect(),
        64 => b"boards".to_vec(),
        _ => clean(numbers),
    }
}

/// Three in four have a column of boards, of these some another one; a few have a name that is nearly that.
fn names(count: usize, numbers: &mut Numbers) -> Vec<Vec<u8>> {
    const NEARLY: [&str; 6] = [" boards", "boards ", "Boards", "board", "boardss", "boards\u{301}"];
    let mut names: Vec<_> = (0..count).map(|_| cell(numbers)).collect();
    for (name, yes, of) in [("boards", 3, 4), ("boards", 1, 5), (one_of(&NEARLY, numbers), 1, 20)] {
        if count > 0 && numbers.within(1, of) <= yes {
            names[numbers.within(0, count as u64 - 1) as usize] = name.as_bytes().to_vec();
        }
    }
    names
}

/// Lines of values below the names: the cells of the first column called boards are numbers.
fn lines(count: usize, numbers: &mut Numbers) -> Vec<u8> {
    let names = names(count, numbers);
    let place = names.iter().position(|name| name == b"boards");
    let mut lines = vec![names.join(&b',')];
    for _ in 0..numbers.within(0, 6) {
        let mut cells: Vec<_> = (0..count).map(|k| if Some(k) == place { boards_cell(numbers) } else { cell(numbers) }).collect();
        match numbers.within(0, 99) {
            0 => drop(cells.pop()),
            1 => cells.push(cell(numbers)),
            2 => cells.clear(),
            _ => {}
        }
        lines.push(cells.join(&b','));
    }
    let mut input = lines.join(&b'\n');
    if numbers.within(0, 1) == 0 {
        input.push(b'\n');
    }
    input
}

/// Now and then a byte comes, goes or is another one.
fn maybe_changed(input: &mut Vec<u8>, numbers: &mut Numbers) {
    if numbers.within(0, 29) != 0 {
        return;
    }
    let at = numbers.within(0, input.len() as u64) as usize;
    let byte = one_of(b",\n\r0\x80\xC2 a", numbers);
    match (numbers.within(0, 2), at < input.len()) {
        (0, true) => drop(input.remove(at)),
        (1, true) => input[at] = byte,
        _ => input.insert(at, byte),
    }
}

/// Input, lines or sheet at the limit, one less or one more.
fn at_a_limit(numbers: &mut Numbers) -> Sheet {
    let about = |limit: usize, numbers: &mut Numbers| limit - 1 + numbers.within(0, 2) as usize;
    let mut sheet = match numbers.within(0, 3) {
        0 => Sheet { input: vec![one_of(b"a,\n", numbers); about(LIMITS.0, numbers)], columns: vec![3, 1] },
        1 => {
            let line = one_of(&["", "7", "木", "65535"], numbers);
            let ends = about(MAX_TALLY_LINES, numbers);
            let rest = one_of(&["", "9"], numbers);
            Sheet { input: format!("boards\n{}{rest}", format!("{line}\n").repeat(ends - 1)).into_bytes(), columns: vec![numbers.within(1, 80) as u32, 2] }
        }
        // One cell without width: with its space, 0A and the last row the sheet is at the limit.
        2 => {
            let bytes = about(LIMITS.0 - "x \n0 0\n".len(), numbers);
            let marks = "\u{301}".repeat(bytes / 2) + if bytes % 2 == 0 { "" } else { "x" };
            Sheet { input: format!("x{marks}").into_bytes(), columns: vec![2 + (bytes % 2) as u32, 0] }
        }
        // Rows of 256 bytes, the last row about at the limit.
        _ => {
            let marks = "\u{301}".repeat(about(249 / 2, numbers)) + one_of(&["", "\u{200B}"], numbers);
            Sheet { input: format!("{marks},,,boards\n{}", ",,,0\n".repeat(4094)).into_bytes(), columns: vec![80, 0, 80, 1, 80, 2, 12, 0] }
        }
    };
    // Columns that are wrong come after too much input, and before all else.
    match numbers.within(0, 11) {
        0 => sheet.columns[0] = 81,
        1 => sheet.columns[1] = 81,
        2 => sheet.columns.clear(),
        3 => sheet.columns.push(1),
        _ => {}
    }
    sheet
}

fn sheet(numbers: &mut Numbers) -> Sheet {
    if numbers.within(0, 999) == 0 {
        return at_a_limit(numbers);
    }
    let columns = columns(numbers);
    let mut input = match numbers.within(0, 99) {
        0 => one_of(&["", "\n", "\n\n", ",", ",\n", "boards", "boards\n", "boards\n\n"], numbers).as_bytes().to_vec(),
        1 => damaged(numbers),
        _ => lines(columns.len() / 2, numbers),
    };
    maybe_changed(&mut input, numbers);
    Sheet { input, columns }
}

/// So many random sheets. Says how many were refused by which number.
pub fn random(numbers: &mut Numbers, count: u64) -> Result<u64, String> {
    let mut refused = BTreeMap::new();
    for case in 0..count {
        let sheet = sheet(numbers);
        let expected = sheet.expected();
        let bytes = sheet.size(&expected, numbers);
        let number = sheet.compare(&expected, bytes).map_err(|e| format!("case {case}: {e}"))?;
        *refused.entry(number).or_insert(0) += 1;
        if number == 21 {
            sheet.compare(&expected, expected.result.data.len()).map_err(|e| format!("case {case}, with room: {e}"))?;
        }
    }
    refused.remove(&0);
    println!("write_tally, refused by number: {refused:?}");
    Ok(count)
}

/// Every string of up to so many of the bytes.
fn strings(bytes: &'static [u8], most: u32) -> impl Iterator<Item = Vec<u8>> {
    let n = bytes.len();
    (0..=most).flat_map(move |len| (0..n.pow(len)).map(move |k| (0..len).map(|i| bytes[k / n.pow(i) % n]).collect()))
}

/// Every string of up to five of eight bytes, of which characters of one, two and three bytes, of every width and controls can be made, in one
/// and two columns of widths up to 3 with all alignments; every string of up to five of seven bytes below two names, of which one is boards;
/// every number below 200,000 as boards, and every character alone in a cell. Buffers are exact, one byte short, or always enough.
pub fn exhaustive() -> Result<u64, String> {
    let mut made = 0;
    let mut all_rooms = |input: &[u8], columns: &[u32]| {
        let sheet = Sheet { input: input.to_vec(), columns: columns.to_vec() };
        let expected = sheet.expected();
        let bytes = expected.result.data.len();
        for bytes in [bytes, bytes.saturating_sub(1), sheet.enough()] {
            sheet.compare(&expected, bytes)?;
            made += 1;
        }
        Ok::<(), String>(())
    };
    let ones = (1..=3).flat_map(|width| (0..=2).map(move |alignment| vec![width, alignment]));
    let twos = [vec![1, 0, 1, 0], vec![2, 2, 3, 1], vec![3, 1, 2, 2]];
    let columns: Vec<_> = ones.chain(twos).collect();
    for input in strings(b"a,\n\xE6\x9C\xA8\xC2\x7F", 5) {
        columns.iter().try_for_each(|columns| all_rooms(&input, columns))?;
    }
    for values in strings(b"019\n,:/", 5) {
        for names in [&b"boards,a\n"[..], b"a,boards\n"] {
            all_rooms(&[names, &values].concat(), &[2, 1, 2, 2])?;
        }
    }
    for n in 0..200_000 {
        all_rooms(format!("boards\n{n}").as_bytes(), &[5, 1])?;
    }
    for c in '\0'..=char::MAX {
        all_rooms(c.to_string().as_bytes(), &[2, 2])?;
    }
    Ok(made)
}
