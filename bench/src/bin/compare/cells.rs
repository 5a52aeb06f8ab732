//! A page of cells: the original cuts each cell by itself, and ours all of them; the library's answer, and all of the buffers, must be what
//! both have. Part ends are right, or wrong in a number.
use std::collections::BTreeMap;

use bench::inputs::{Numbers, damaged};
use bench::ours;
use bench::recordings::{Expected, content};
use bench::room::{LIMITS, Room};
use oracle::{Lists, Recording};
use ruszvedok::MAX_CELLS;
use ruszvedok::lent;

use crate::{lend_to, same, width_for};

/// What the call is given.
#[derive(Debug)]
struct Page {
    content: Vec<u8>,
    ends: Vec<u32>,
    ellipsis: Vec<u8>,
    width: u32,
}

/// Bytes, entry numbers, text bytes and list numbers that are lent.
type Sizes = (usize, usize, usize, usize);

/// Document 02's refusal 38, from its words.
fn ends_fault(page: &Page) -> u64 {
    let mut last = 0;
    for end in &page.ends {
        if *end < last {
            return 38;
        }
        last = *end;
    }
    if page.ends.len() > MAX_CELLS || last as usize != page.content.len() { 38 } else { 0 }
}

fn too_long(data: &[u8]) -> u64 {
    (data.len() > LIMITS.0) as u64
}

impl Page {
    /// The refusals of what is given; without any, each cell cut by the original, in order.
    fn expected(&self) -> Expected {
        let faults = vec![too_long(&self.content), too_long(&self.ellipsis), ends_fault(self)];
        let (mut data, mut lines) = (vec![], vec![]);
        if faults == [0, 0, 0] {
            let ellipsis = Recording::plain(&self.ellipsis);
            let mut from = 0;
            for end in self.ends.iter().map(|end| *end as usize) {
                let (cut, width) = oracle::write_truncated_end(&Recording::plain(&self.content[from..end]), &ellipsis, self.width as usize);
                data.extend(cut.data);
                lines.extend([data.len() as u32, width as u32]);
                from = end;
            }
        }
        Expected { faults, result: Lists { data, ..Lists::default() }, lines, number: self.ends.len() as u64 }
    }

    /// Exactly enough; one short of bytes or numbers, or of both; a little more; or so much that nothing needs to be measured first.
    fn sizes(&self, expected: &Expected, numbers: &mut Numbers) -> Sizes {
        let (bytes, cells) = (expected.result.data.len(), expected.lines.len());
        let more = |n: usize, numbers: &mut Numbers| n + numbers.within(0, 9) as usize;
        match numbers.within(0, 7) {
            0 | 1 => (bytes, 0, 0, cells),
            2 => (bytes.saturating_sub(1), 0, 0, more(cells, numbers)),
            3 => (more(bytes, numbers), 0, 0, cells.saturating_sub(1)),
            4 => (bytes.saturating_sub(1), 0, 0, numbers.within(0, cells as u64) as usize),
            5 => (more(bytes, numbers), 0, 0, more(cells, numbers)),
            _ => (more(self.content.len() + self.ends.len() * self.ellipsis.len(), numbers), 0, 0, more(cells, numbers)),
        }
    }

    /// The library's call and ours over buffers of these lengths; gives back the number of the refusal.
    fn compare(&self, expected: &Expected, sizes: Sizes) -> Result<u64, String> {
        let (mut ours, mut listed) = (Room::of(sizes.0, 0, 0), vec![0xA5A5_A5A5; sizes.3]);
        let answer = ours::write_truncated_cells(&self.content, &self.ends, &self.ellipsis, self.width, &mut ours.data, &mut listed);
        let mut list = vec![];
        let call = |room: &mut Room, lines: &mut [u32]| {
            let left = lent::write_truncated_cells(&self.content, &self.ends, &self.ellipsis, self.width, &mut room.data, lines);
            list = lines.to_vec();
            left
        };
        let (got, room) = lend_to(sizes, expected, call, self)?;
        let got_len = if got.refusal == 0 { Ok(got.data as usize) } else { Err(got.refusal) };
        same((answer, &ours.data, &listed), (got_len, &room.data, &list), self)?;
        Ok(got.refusal)
    }
}

/// The cells joined, with their ends: up to nine, or about as many as there may be.
fn cells(numbers: &mut Numbers) -> (Vec<u8>, Vec<u32>) {
    let count = match numbers.within(0, 19) {
        0 => 0,
        1 => MAX_CELLS as u64 + numbers.within(0, 1),
        2 => numbers.within(0, MAX_CELLS as u64),
        _ => numbers.within(1, 9),
    };
    let (mut joined, mut ends) = (vec![], vec![]);
    for _ in 0..count {
        joined.extend(match numbers.within(0, 9) {
            0 => vec![],
            1..4 => content(numbers),
            _ => damaged(numbers),
        });
        ends.push(joined.len() as u32);
    }
    // Characters across ends.
    if numbers.within(0, 3) == 0 && count > 0 {
        ends.iter_mut().for_each(|end| *end = numbers.within(0, joined.len() as u64) as u32);
        ends.sort_unstable();
        ends[count as usize - 1] = joined.len() as u32;
    }
    (joined, ends)
}

/// Now and then one end is another, is gone, or comes once more, or a byte of the data comes or goes.
fn maybe_wrong(content: &mut Vec<u8>, ends: &mut Vec<u32>, numbers: &mut Numbers) {
    if numbers.within(0, 9) != 0 {
        return;
    }
    let len = content.len() as u64;
    match (numbers.within(0, 6), ends.len() as u64) {
        (0, _) | (_, 0) => content.push(b'x'),
        (1, _) => drop(content.pop()),
        (kind, count) => {
            let at = numbers.within(0, count - 1) as usize;
            match kind {
                2 => drop(ends.remove(at)),
                3 => ends.insert(at, ends[at]),
                4 => ends[at] = numbers.within(0, len + 2) as u32,
                5 => ends[at] = ends[at].wrapping_sub(1),
                _ => ends[at] = [u32::MAX, (1 << 16) + ends[at]][numbers.within(0, 1) as usize],
            }
        }
    }
}

/// Data, ellipsis or result as long as the limit, or one byte longer.
fn at_a_limit(numbers: &mut Numbers) -> Page {
    let over = numbers.within(0, 1) as usize;
    let long = |len: usize| b"oak 12 ft".repeat(len / 9 + 1)[..len].to_vec();
    let page = |content: Vec<u8>, ends, ellipsis, width| Page { content, ends, ellipsis, width };
    let all = (LIMITS.0 + over) as u32;
    match numbers.within(0, 3) {
        0 => page(long(all as usize), vec![numbers.within(0, all as u64) as u32, all], b"..".to_vec(), [5, u32::MAX][numbers.within(0, 1) as usize]),
        1 => page(b"spruce".to_vec(), vec![3, 6], long(all as usize), numbers.within(0, 7) as u32),
        // Each cell is a letter and an ellipsis without width.
        2 => page(b"ab".repeat(MAX_CELLS), (1..=MAX_CELLS as u32).map(|k| 2 * k).collect(), vec![0; LIMITS.0 / MAX_CELLS - 1 + over], 1),
        // Of the first a letter is left, with an ellipsis as long as what goes, or one byte longer; the second has no width, and is all left.
        _ => page([&b"abcd"[..], &vec![0; LIMITS.0 - 4]].concat(), vec![4, LIMITS.0 as u32], vec![0; 3 + over], 1),
    }
}

fn page(numbers: &mut Numbers) -> Page {
    if numbers.within(0, 999) == 0 {
        let mut page = at_a_limit(numbers);
        // An end that falls: too much data, or too long an ellipsis, comes before it.
        if numbers.within(0, 1) == 0 {
            page.ends.insert(0, u32::MAX);
        }
        return page;
    }
    let (mut content, mut ends) = cells(numbers);
    let width = match numbers.within(0, 3) {
        0 => numbers.within(0, 5) as u32,
        1 => width_for(&content, numbers) as u32,
        _ => {
            // About the width of one of the cells.
            let n = numbers.within(0, ends.len() as u64) as usize;
            let from = if n == 0 { 0 } else { ends[n - 1] as usize };
            width_for(&content[from..ends.get(n).map_or(content.len(), |end| *end as usize)], numbers) as u32
        }
    };
    let ellipsis = match numbers.within(0, 4) {
        0 => vec![],
        1 => b"..".to_vec(),
        2 => "…".as_bytes().to_vec(),
        _ => damaged(numbers),
    };
    maybe_wrong(&mut content, &mut ends, numbers);
    Page { content, ends, ellipsis, width }
}

/// So many random pages. Says how many were refused by which number.
pub fn random(numbers: &mut Numbers, count: u64) -> Result<u64, String> {
    let mut refused = BTreeMap::new();
    for case in 0..count {
        let page = page(numbers);
        let expected = page.expected();
        let sizes = page.sizes(&expected, numbers);
        let number = page.compare(&expected, sizes).map_err(|e| format!("case {case}: {e}"))?;
        *refused.entry(number).or_insert(0) += 1;
        if (21..30).contains(&number) {
            page.compare(&expected, expected.enough()).map_err(|e| format!("case {case}, with room: {e}"))?;
        }
    }
    refused.remove(&0);
    println!("write_truncated_cells, refused by number: {refused:?}");
    Ok(count)
}

/// Every string of up to so many of the bytes.
fn strings(bytes: &'static [u8], most: u32) -> impl Iterator<Item = Vec<u8>> {
    let n = bytes.len();
    (0..=most).flat_map(move |len| (0..n.pow(len)).map(move |k| (0..len).map(|i| bytes[k / n.pow(i) % n]).collect()))
}

/// Every list of so many numbers up to `last`.
fn lists(len: u32, last: usize) -> impl Iterator<Item = Vec<u32>> {
    (0..(last + 1).pow(len)).map(move |k| (0..len).map(|i| (k / (last + 1).pow(i) % (last + 1)) as u32).collect())
}

/// Every string of up to four of six bytes, of which characters of one, two and three bytes and of every width can be made, in one to three
/// cells with every right ends, at widths up to 4 and with five ellipses; then every string of up to three of two bytes with every list of up
/// to three ends up to one beyond the data. Buffers are exact, one byte or one number short, or surely enough.
pub fn exhaustive() -> Result<u64, String> {
    let mut made = 0;
    let mut all_rooms = |page: &Page| {
        let expected = page.expected();
        let (bytes, cells) = (expected.result.data.len(), expected.lines.len());
        let most = page.content.len() + page.ends.len() * page.ellipsis.len();
        for (bytes, cells) in [(bytes, cells), (bytes.saturating_sub(1), cells), (bytes, cells.saturating_sub(1)), (most, cells)] {
            page.compare(&expected, (bytes, 0, 0, cells))?;
            made += 1;
        }
        Ok::<(), String>(())
    };
    for content in strings(b"a\xE6\x9C\xA8\xCC\x81", 4) {
        let all = content.len() as u32;
        for ends in (1..=3).flat_map(|len| lists(len, content.len())).filter(|ends| ends.is_sorted() && ends.last() == Some(&all)) {
            for ellipsis in [&b""[..], b"~", b"..", b"\xE6", b"\x9C\xA8"] {
                for width in 0..=4 {
                    all_rooms(&Page { content: content.clone(), ends: ends.clone(), ellipsis: ellipsis.to_vec(), width })?;
                }
            }
        }
    }
    for content in strings(b"a\xE6", 3) {
        for ends in (0..=3).flat_map(|len| lists(len, content.len() + 1)) {
            for width in 0..=2 {
                all_rooms(&Page { content: content.clone(), ends: ends.clone(), ellipsis: b"~".to_vec(), width })?;
            }
        }
    }
    Ok(made)
}
