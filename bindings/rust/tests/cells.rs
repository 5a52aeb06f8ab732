//! A page of cells: edges, refusals 1, 38, 9, 21 and 24 in their order, and random cells against `write_truncated_end` on each alone.
use ruszvedok::lent::{self, Buffers, Cells, Done, View};
use ruszvedok::*;

mod numbers;
use numbers::Numbers;

/// What no call has written.
const BYTE: u8 = 0xA5;
const NUMBER: u32 = 0xA5A5_A5A5;

/// The cells joined, and the end of each.
fn joined(cells: &[&[u8]]) -> (Vec<u8>, Vec<u32>) {
    let mut content = vec![];
    let ends = cells.iter().map(|cell| {
        content.extend_from_slice(cell);
        content.len() as u32
    });
    let ends = ends.collect();
    (content, ends)
}

/// What `write_truncated_end` leaves of a cell alone, and the width that it returns.
fn alone(cell: &[u8], ellipsis: &[u8], width: u32) -> (Vec<u8>, u32) {
    let view = |data| View { data, ..View::default() };
    let mut data = vec![0; cell.len() + ellipsis.len()];
    let left = lent::write_truncated_end(view(cell), view(ellipsis), width, Buffers { data: &mut data, ..Buffers::default() }).unwrap();
    data.truncate(left.used.data);
    (data, left.number as u32)
}

/// Each cell alone, in order: the bytes joined, and end and width of each.
fn each_alone(cells: &[&[u8]], ellipsis: &[u8], width: u32) -> (Vec<u8>, Vec<u32>) {
    let (mut data, mut list) = (vec![], vec![]);
    for cell in cells {
        let (bytes, width) = alone(cell, ellipsis, width);
        data.extend(bytes);
        list.extend([data.len() as u32, width]);
    }
    (data, list)
}

/// A call over watched buffers of these lengths: all beyond what it says it left is untouched, after a refusal everything.
fn lend(content: &[u8], ends: &[u32], ellipsis: &[u8], width: u32, bytes: usize, numbers: usize) -> Result<(Done, Vec<u8>, Vec<u32>), Refusal> {
    let (mut data, mut list) = (vec![BYTE; bytes], vec![NUMBER; numbers]);
    let answer = lent::write_truncated_cells(content, ends, ellipsis, width, &mut data, &mut list);
    let (data_len, list_len) = answer.map_or((0, 0), |done| (done.used.data, done.number as usize * CELL_NUMBERS));
    assert!(data[data_len..].iter().all(|byte| *byte == BYTE) && list[list_len..].iter().all(|number| *number == NUMBER));
    data.truncate(data_len);
    list.truncate(list_len);
    answer.map(|done| (done, data, list))
}

/// The number of its refusal, or 0.
fn refused(content: &[u8], ends: &[u32], ellipsis: &[u8], width: u32, bytes: usize, numbers: usize) -> u64 {
    lend(content, ends, ellipsis, width, bytes, numbers).err().map_or(0, Refusal::number)
}

/// Over lent buffers with room, exact ones and ones that are too short, and over the type, the page is each cell alone.
fn agree(cells: &[&[u8]], ellipsis: &[u8], width: u32) {
    let (content, ends) = joined(cells);
    let (data, list) = each_alone(cells, ellipsis, width);
    let (bytes, numbers) = (data.len(), list.len());
    // Exact, with some room, and with so much that nothing needs to be measured first.
    for (more, many) in [(0, 0), (1, 1), (content.len() + cells.len() * ellipsis.len(), 9)] {
        let (done, left, listed) = lend(&content, &ends, ellipsis, width, bytes + more, numbers + many).unwrap();
        assert_eq!((&left, &listed), (&data, &list), "{cells:x?}, {ellipsis:x?}, {width}");
        assert_eq!((done.used.entries, done.used.text, done.number), (0, 0, cells.len() as u64));
    }
    if bytes > 0 {
        assert_eq!(refused(&content, &ends, ellipsis, width, bytes - 1, numbers), 21);
        assert_eq!(refused(&content, &ends, ellipsis, width, bytes - 1, 0), 21);
    }
    if numbers > 0 {
        for short in [numbers - 1, numbers / 2, 0] {
            assert_eq!(refused(&content, &ends, ellipsis, width, bytes, short), 24);
        }
    }
    let page = TruncatedCells::cut(cells, ellipsis, width as usize).unwrap();
    assert_eq!(Ok(&page), TruncatedCells::cut_parts(&content, &ends, ellipsis, width as usize).as_ref());
    assert_eq!((page.data(), page.len(), page.is_empty()), (&data[..], cells.len(), cells.is_empty()));
    let texts: Vec<_> = cells.iter().map(|cell| alone(cell, ellipsis, width)).collect();
    assert!(page.texts().eq(texts.iter().map(|(bytes, width)| (&bytes[..], *width as usize))));
    assert!(page.cells().eq(Cells::new(&list, cells.len())) && page.cells().len() == cells.len());
    assert_eq!((page.get(0), page.get(cells.len())), (page.cells().next(), None));
}

#[test]
fn edges() {
    let pages: [&[&[u8]]; 10] = [
        &[],
        &[b""],
        &[b"", b"a", b"", b"b", b""],
        &[b"oak", b"spruce", b"12 ft"],
        &["木材".as_bytes(), "e\u{301}toile".as_bytes(), "\u{301}".as_bytes()],
        // A wide character across an end is two ill-formed pieces.
        &[b"ab\xE6", b"\x9C\xA8cd"],
        &[b"\xE6\x9C", b"\xA8"],
        // What is left of it becomes a character with the ellipsis that ends one.
        &[b"\xE6xyzab", b"x\xE6yzab"],
        &[b"\xFF\xFE\x80", b"a\xF0\x9F\x98", b"\xC3"],
        &["😀🚚".as_bytes(), b"\n\t ", b"a\r\nb"],
    ];
    // The widest is wider than most widths here; one has no bytes, one no width, and three are ill-formed, of which one ends a character.
    let ellipses: [&[u8]; 8] = [b"..", b"", "…".as_bytes(), b"a long ellipsis", "\u{301}".as_bytes(), b"\xFF", b"\x9C\xA8", "木".as_bytes()];
    for cells in pages {
        for ellipsis in ellipses {
            for width in [0, 1, 2, 3, 4, 5, 6, 80, u32::MAX] {
                agree(cells, ellipsis, width);
            }
        }
    }
}

/// Some pages as they should be, from the request alone.
#[test]
fn by_hand() {
    let cut = |cells: &[&str], ellipsis: &str, width| {
        let page = TruncatedCells::cut(cells, ellipsis, width).unwrap();
        (String::from_utf8_lossy(page.data()).into_owned(), page.cells().map(|cell| (cell.end, cell.width)).collect::<Vec<_>>())
    };
    assert_eq!(cut(&["ab", "abcd", "xy"], "~", 3), ("abab~xy".into(), vec![(2, 2), (5, 3), (7, 2)]));
    assert_eq!(cut(&["", "a", "", "b", ""], "~", 3), ("ab".into(), vec![(0, 0), (1, 1), (1, 0), (2, 1), (2, 0)]));
    assert_eq!(cut(&["木材", "木"], "..", 3), ("..木".into(), vec![(2, 2), (5, 2)]));
    assert_eq!(cut(&["xyz"], "ab", 1), ("a".into(), vec![(1, 1)]));
    assert_eq!(cut(&["xyz"], "", 1), ("x".into(), vec![(1, 1)]));
    assert_eq!(cut(&["\u{301}", "a"], "~", 0), ("\u{301}".into(), vec![(2, 0), (2, 0)]));
    assert_eq!(cut(&[], "~", 3), (String::new(), vec![]));
    // A character across an end: each of its bytes is ill-formed by itself, and one column wide.
    for (width, data, widths) in [(2, &b"\xE6\x9C\xA8"[..], [1, 2]), (1, b"\xE6~", [1, 1]), (0, b"", [0, 0])] {
        let page = TruncatedCells::cut_parts("木".as_bytes(), &[1, 3], "~", width).unwrap();
        assert_eq!(page.data(), data);
        assert!(page.cells().map(|cell| cell.width).eq(widths));
    }
    // The width is the sum of the widths kept, though the bytes left join to a character of width 2.
    let page = TruncatedCells::cut([b"\xE6xyzab"], b"\x9C\xA8", 3).unwrap();
    assert_eq!((page.data(), page.get(0).map(|cell| cell.width)), ("木".as_bytes(), Some(3)));
    // A width over 32 bits does what the largest does.
    assert_eq!(TruncatedCells::cut(["oak"], "~", usize::MAX).unwrap().data(), b"oak");
    assert_eq!(TruncatedCells::default(), TruncatedCells::cut([""; 0], "~", 3).unwrap());
}

/// As many cells as there may be, and one more.
#[test]
fn as_many_as_there_may_be() {
    let cells = [&b"spruce"[..]; MAX_CELLS + 1];
    for count in [MAX_CELLS - 1, MAX_CELLS] {
        agree(&cells[..count], b"..", 4);
        agree(&vec![&b""[..]; count], b"..", 4);
    }
    let (content, ends) = joined(&cells);
    assert_eq!(refused(&content, &ends, b"..", 4, 1000, 1000), 38);
    assert_eq!(refused(b"", &[0; MAX_CELLS + 1], b"..", 4, 1000, 1000), 38);
    assert_eq!(TruncatedCells::cut(cells, "..", 4), Err(Refusal::CellEnds));
    assert_eq!(TruncatedCells::cut([""; MAX_CELLS + 1], "..", 4), Err(Refusal::CellEnds));
}

/// Ends that are none: 38, whatever the buffers.
#[test]
fn ends() {
    let others: [(&[u8], &[u32]); 12] = [
        (b"a", &[]),
        (b"", &[1]),
        (b"abcdef", &[3, 5]),
        (b"abcdef", &[3, 7]),
        (b"abcdef", &[4, 3, 6]),
        (b"abcdef", &[6, 5]),
        (b"abcdef", &[6, 5, 6]),
        (b"abcdef", &[7, 6]),
        (b"abcdef", &[0]),
        (b"abcdef", &[u32::MAX, 6]),
        (b"abcdef", &[3, u32::MAX]),
        // As 16 bits these would do.
        (b"abcdef", &[3, (1 << 16) + 6]),
    ];
    for (content, ends) in others {
        for (bytes, numbers) in [(64, 64), (0, 0), (0, 64), (64, 0)] {
            assert_eq!(refused(content, ends, b"..", 2, bytes, numbers), 38, "{ends:?}");
        }
        assert_eq!(TruncatedCells::cut_parts(content, ends, "..", 2), Err(Refusal::CellEnds));
    }
}

/// 1 of the content, 1 of the ellipsis, 38, 9, 21, 24.
#[test]
fn order_of_refusals() {
    let long = vec![b'a'; MAX_DATA + 1];
    let all = MAX_DATA as u32;
    for (bytes, numbers) in [(MAX_DATA + 1, 64), (0, 0)] {
        for ends in [&[][..], &[1, 0], &[all + 1]] {
            assert_eq!(refused(&long, ends, b"", 2, bytes, numbers), 1);
            assert_eq!(refused(b"", ends, &long, 2, bytes, numbers), 1);
        }
        // Two cells together one over the limit: of the first, which is cut, two bytes and an ellipsis of no width.
        let marks = "\u{301}".repeat(MAX_DATA / 2);
        assert_eq!(refused(b"abcd", &[3, 4], marks.as_bytes(), 2, bytes, numbers), 9);
        assert_eq!(refused(b"abcd", &[3, 5], marks.as_bytes(), 2, bytes, numbers), 38);
        // All of the data, as one cell and in 64.
        let sixty_four: Vec<_> = (1..=64).map(|k| all / 64 * k).collect();
        for ends in [&[all][..], &sixty_four] {
            let number = if bytes == 0 { 21 } else { 24 };
            assert_eq!(refused(&long[1..], ends, b"..", u32::MAX, bytes, 2 * ends.len() - 1), number);
        }
    }
    assert_eq!(TruncatedCells::cut([&long], "", 2), Err(Refusal::DataTooLong));
    assert_eq!(TruncatedCells::cut([""], &long, 2), Err(Refusal::DataTooLong));
    assert_eq!(TruncatedCells::cut(["abc", "d"], "\u{301}".repeat(MAX_DATA / 2), 2), Err(Refusal::ResultOverLimit));
    assert_eq!(TruncatedCells::cut([&long[1..]], &long[1..], MAX_DATA).unwrap().data(), &long[1..]);
}

/// 64 cells that are all cut and get the ellipsis, which has no width, together exactly at the limit of data: one letter is left of each.
#[test]
fn at_the_limit() {
    let (cells, ellipsis) = (["aa"; MAX_CELLS], "\0".repeat(MAX_DATA / MAX_CELLS - 1));
    let page = TruncatedCells::cut(cells, &ellipsis, 1).unwrap();
    assert_eq!((page.data().len(), page.len()), (MAX_DATA, MAX_CELLS));
    assert!(page.cells().all(|cell| cell.range().len() == MAX_DATA / MAX_CELLS && cell.width == 1));
    assert_eq!(TruncatedCells::cut(cells, ellipsis + "\0", 1), Err(Refusal::ResultOverLimit));
}

/// Random cells: letters, wide characters, marks and any bytes, also cut apart anywhere.
#[test]
fn as_each_alone() {
    let mut numbers = Numbers(0x9E37_79B9_7F4A_7C15);
    let piece = |numbers: &mut Numbers, most: usize| -> Vec<u8> {
        let letters = ["a", "b ", "木", "材", "\u{301}", "é", "😀", "\n", "\t"];
        let parts = (0..numbers.below(most)).map(|_| match numbers.below(4) {
            0 => vec![numbers.below(256) as u8],
            _ => letters[numbers.below(letters.len())].as_bytes().to_vec(),
        });
        parts.flatten().collect()
    };
    for _ in 0..2000 {
        let content = piece(&mut numbers, 120);
        let mut ends: Vec<_> = (0..numbers.below(MAX_CELLS)).map(|_| numbers.below(content.len() + 1)).collect();
        ends.push(content.len());
        ends.sort_unstable();
        let starts = [0].into_iter().chain(ends.iter().copied());
        let cells: Vec<_> = starts.zip(&ends).map(|(start, end)| &content[start..*end]).collect();
        let (ellipsis, width) = (piece(&mut numbers, 4), numbers.below(12) as u32);
        agree(&cells, &ellipsis, width);
    }
}
