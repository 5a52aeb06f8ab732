//! The line index: edges, refusals 36 and 37 with what comes before them, and random data against plain Rust.
use std::ops::Range;

use ruszvedok::lent::{self, View};
use ruszvedok::*;

mod numbers;
use numbers::Numbers;

fn plain(data: impl Into<Vec<u8>>) -> FormatRecorder {
    FormatRecorder::with_data(data).unwrap()
}

fn view(data: &[u8]) -> View<'_> {
    View { data, ..View::default() }
}

/// 0, and the place after each 0A.
fn starts(data: &[u8]) -> Vec<u32> {
    let behind = (1..).zip(data).filter(|(_, byte)| **byte == b'\n').map(|(place, _)| place);
    [0].into_iter().chain(behind).collect()
}

/// The lines, each without its 0A.
fn lines(data: &[u8]) -> Vec<Range<usize>> {
    let mut first = 0;
    data.split(|byte| *byte == b'\n')
        .map(|line| {
            let line = first..first + line.len();
            first = line.end + 1;
            line
        })
        .collect()
}

/// Its line and column.
fn place(content: &FormatRecorder, index: &LineIndex, offset: usize) -> (usize, usize) {
    let at = index.place_of(content, offset).unwrap();
    (at.line, at.column)
}

/// All answers about a recording are those of plain Rust.
fn agree(content: &FormatRecorder, index: &LineIndex) {
    let data = content.data();
    let lines = lines(data);
    assert_eq!((index.starts(), index.line_count()), (&starts(data)[..], lines.len()));
    for (n, line) in lines.iter().enumerate() {
        assert_eq!(index.line_at(content, n), Ok(line.clone()));
    }
    for offset in 0..=data.len() {
        let line = data[..offset].iter().filter(|byte| **byte == b'\n').count();
        assert_eq!(place(content, index, offset), (line, offset - lines[line].start));
    }
    for n in [lines.len(), lines.len() + 1, usize::MAX] {
        assert_eq!(index.line_at(content, n), Err(Refusal::NoSuchPlace));
    }
    for offset in [data.len() + 1, data.len() + 2, usize::MAX] {
        assert_eq!(index.place_of(content, offset), Err(Refusal::NoSuchPlace));
    }
}

#[test]
fn edges() {
    for data in ["", "\n", "a", "a\n", "\na", "a\nbb\n", "\n\n\n", "a\r\nb", "木\n材", "0123456789abcdef\n", "0123456789abcde\nf"] {
        let rows = plain(data);
        agree(&rows, &LineIndex::build(&rows).unwrap());
    }
    let rows = plain("a\nbb\n");
    let index = LineIndex::build(&rows).unwrap();
    assert_eq!(index.starts(), [0, 2, 5]);
    assert_eq!((index.line_at(&rows, 1), index.line_at(&rows, 2)), (Ok(2..4), Ok(5..5)));
    assert_eq!([1, 2, 4, 5].map(|offset| place(&rows, &index, offset)), [(0, 1), (1, 0), (1, 2), (2, 0)]);
    assert_eq!((LineIndex::default(), LineIndex::new()), (LineIndex::build(&FormatRecorder::new()).unwrap(), LineIndex::default()));
}

/// The longest data there may be: as many lines as bytes and one more, or one.
#[test]
fn at_the_limit() {
    for byte in [b'\n', b'a'] {
        let rows = plain(vec![byte; MAX_DATA]);
        let mut index = LineIndex::build(&rows).unwrap();
        assert_eq!(index.starts(), starts(rows.data()));
        let last = if byte == b'\n' { MAX_DATA..MAX_DATA } else { 0..MAX_DATA };
        assert_eq!(index.line_at(&rows, index.line_count() - 1), Ok(last.clone()));
        assert_eq!(place(&rows, &index, MAX_DATA), (index.line_count() - 1, last.len()));
        let built = index.clone();
        index.extend(&rows).unwrap();
        assert_eq!(index, built);
        let mut index = LineIndex::new();
        index.extend(&rows).unwrap();
        assert_eq!(index, built);
    }
}

/// After an append extending is building; an index of other data never answers, and is left as it was.
#[test]
fn extending() {
    let mut rows = plain("oak\nfir");
    let mut index = LineIndex::build(&rows).unwrap();
    let stale = index.clone();
    rows.write_labeled("grade", "\nFAS\n").unwrap();
    assert_eq!((index.line_at(&rows, 0), index.place_of(&rows, 99)), (Err(Refusal::LineIndex), Err(Refusal::LineIndex)));
    index.extend(&rows).unwrap();
    assert_eq!(index, LineIndex::build(&rows).unwrap());
    agree(&rows, &index);
    // Entries play no part, and data without a 0A only makes the last line longer.
    rows.push_label("grade").unwrap();
    agree(&rows, &index);
    rows.write_data("more").unwrap();
    index.extend(&rows).unwrap();
    agree(&rows, &index);
    for other in ["oak\nfi", "oak fir and more", "oak\n\nfir and more", "oak", ""] {
        let mut index = stale.clone();
        assert_eq!(index.extend(&plain(other)), Err(Refusal::LineIndex), "{other:?}");
        assert_eq!(index, stale);
    }
}

/// Which number a call over a lent list is refused by; the list then holds what it held.
fn refused(index: &[u32], call: impl FnOnce(&mut [u32]) -> Result<lent::Done, Refusal>) -> u64 {
    let mut list = index.to_vec();
    let answer = call(&mut list);
    if answer.is_err() {
        assert_eq!(list, index);
    }
    answer.err().map_or(0, Refusal::number)
}

/// 36 comes behind the content's own refusals, and 37 behind 36.
#[test]
fn refusals() {
    let rows = View { data: b"a\nbb\n", entries: &[2, 0, 0, 1, 4, 1, 0, 0], text: b"x" };
    let long = vec![b'\n'; MAX_DATA + 1];
    let bad = [(1, View { data: &long, ..rows }), (2, View { entries: &[0], ..rows }), (3, View { entries: &[0, 3, 0, 0], ..rows })];
    let bad = bad.into_iter().chain([(4, View { data: b"a", ..rows }), (5, View { text: b"", ..rows }), (6, View { text: b"\xFF", ..rows })]);
    for (number, rows) in bad {
        for list in [&[][..], &[0, 2, 5], &[7; 4]] {
            assert_eq!(refused(list, |list| lent::build_line_index(rows, list)), number);
            for (earlier, used) in [(0, 0), (5, 3), (usize::MAX, usize::MAX)] {
                assert_eq!(refused(list, |list| lent::extend_line_index(rows, earlier, list, used)), number);
            }
            for at in [0, 6, usize::MAX] {
                assert_eq!(lent::line_at(rows, list, at).map_err(Refusal::number), Err(number));
                assert_eq!(lent::place_of(rows, list, at).map_err(Refusal::number), Err(number));
            }
        }
    }
    for (room, number) in [(0, 36), (1, 36), (2, 36), (3, 0), (4, 0)] {
        assert_eq!(refused(&vec![7; room], |list| lent::build_line_index(rows, list)), number, "{room}");
    }
    let extended = |list: &[u32], earlier, used| refused(list, |list| lent::extend_line_index(rows, earlier, list, used));
    for (earlier, list, used) in [(0, 1, 1), (1, 1, 1), (2, 2, 2), (3, 2, 2), (4, 2, 2), (5, 3, 3)] {
        // Long enough, too short, and any other length of the earlier index.
        let list = &[&starts(&rows.data[..earlier])[..list], &[7; 3]].concat();
        assert_eq!((extended(&list[..3], earlier, used), extended(list, earlier, used)), (0, 0));
        assert_eq!(extended(&list[..2], earlier, used), 36);
        for other in (0..=list.len() + 1).filter(|other| *other != used) {
            assert_eq!(extended(list, earlier, other), 36, "{earlier} {other}");
        }
    }
    assert_eq!((extended(&[0, 2, 5], 6, 3), extended(&[0, 2, 5], usize::MAX, 3)), (36, 36));
    assert_eq!((extended(&[0, 2, 5], 5, usize::MAX), extended(&[], 0, 0), extended(&[1, 7, 7], 0, 1)), (36, 36, 36));
    // Numbers that are not exactly the index: 36, also for a line or an offset that is not there.
    let others: [&[u32]; 11] =
        [&[], &[0], &[0, 2], &[0, 5], &[0, 2, 4], &[0, 3, 5], &[1, 2, 5], &[0, 2, 5, 5], &[0, 2, 2, 5], &[0, 5, 2], &[0, 2, u32::MAX]];
    for list in others {
        for at in [0, 1, 3, 6, usize::MAX] {
            assert_eq!((lent::line_at(rows, list, at), lent::place_of(rows, list, at)), (Err(Refusal::LineIndex), Err(Refusal::LineIndex)));
        }
    }
    for (n, line) in [(0, Ok(0..1)), (1, Ok(2..4)), (2, Ok(5..5)), (3, Err(37)), (usize::MAX, Err(37))] {
        assert_eq!(lent::line_at(rows, &[0, 2, 5], n).map_err(Refusal::number), line);
    }
    for (offset, number) in [(5, 0), (6, 37), (usize::MAX, 37)] {
        assert_eq!(lent::place_of(rows, &[0, 2, 5], offset).err().map_or(0, Refusal::number), number);
    }
}

/// Random data in pieces, over the type and over lent lists of any length.
#[test]
fn as_plain_rust() {
    let mut numbers = Numbers(0x9E37_79B9_7F4A_7C15);
    let (mut done, mut short) = (0, 0);
    for _ in 0..400 {
        let (mut rows, mut index) = (FormatRecorder::new(), LineIndex::new());
        // From all 0A to hardly any.
        let rare = 1 + numbers.below(12) * numbers.below(12);
        for _ in 0..4 {
            let earlier = rows.data().len();
            let piece: Vec<u8> = (0..numbers.below(60)).map(|_| if numbers.below(rare) == 0 { b'\n' } else { numbers.below(256) as u8 }).collect();
            match numbers.below(3) {
                0 => rows.write_labeled("x", &piece).unwrap(),
                _ => rows.write_data(&piece).unwrap(),
            }
            // The same over a list that is lent, with some room beyond or a little too short.
            let (before, after) = (starts(&rows.data()[..earlier]), starts(rows.data()));
            let room = (after.len() + numbers.below(4)).saturating_sub(1).max(before.len());
            let mut list = vec![7; room];
            list[..before.len()].copy_from_slice(&before);
            let held = list.clone();
            match lent::extend_line_index(rows.view(), earlier, &mut list, before.len()) {
                Ok(left) => {
                    assert_eq!((left.number as usize, left.used), (after.len(), lent::Used::default()));
                    assert_eq!((&list[..after.len()], &list[after.len()..]), (&after[..], &held[after.len()..]));
                    done += 1;
                }
                Err(refusal) => {
                    assert_eq!((refusal, list), (Refusal::LineIndex, held));
                    assert!(room < after.len());
                    short += 1;
                }
            }
            index.extend(&rows).unwrap();
            assert_eq!(index, LineIndex::build(&rows).unwrap());
            agree(&rows, &index);
            // One number that is not right: never an answer.
            let (mut list, at) = (after.clone(), numbers.below(after.len()));
            list[at] = list[at].wrapping_add(1 + numbers.below(3) as u32).wrapping_sub(4 * numbers.below(2) as u32);
            assert_eq!(lent::line_at(view(rows.data()), &list, 0), Err(Refusal::LineIndex));
        }
    }
    assert!(done > 500 && short > 100, "{done} done, {short} too short");
}
