//! The tally sheet: cases of the request by hand, refusals 1, 39, 40, 41, 9 and 21 in their order, limits, and random sheets against the
//! library's own calls that cut and fill one cell.
use ruszvedok::lent::{self, Buffers, View};
use ruszvedok::*;

mod numbers;
use numbers::Numbers;

/// What no call has written.
const BYTE: u8 = 0xA5;

/// A call over a watched buffer of this length: all beyond the sheet is untouched, after a refusal everything.
fn lend(input: &[u8], columns: &[u32], bytes: usize) -> Result<Vec<u8>, u64> {
    let mut data = vec![BYTE; bytes];
    let answer = lent::write_tally(input, columns, &mut data);
    let len = answer.map_or(0, |done| done.used.data);
    assert!(data[len..].iter().all(|byte| *byte == BYTE), "{answer:?}: more than the sheet is written");
    data.truncate(len);
    match answer {
        Ok(done) => {
            assert_eq!((done.used.entries, done.used.text, done.number), (0, 0, 0));
            Ok(data)
        }
        Err(refusal) => Err(refusal.number()),
    }
}

/// Bytes that are always enough, as the header says.
fn enough(input: &[u8], columns: &[u32]) -> usize {
    let lines = input.iter().filter(|byte| **byte == b'\n').count() + 1;
    input.len() + lines * columns.chunks(2).map(|column| column[0] as usize).sum::<usize>() + 16
}

/// The columns of these numbers, if each of them is one.
fn typed(columns: &[u32]) -> Option<Vec<Column>> {
    let column = |numbers: &[u32]| match numbers {
        [width, 0] => Some(Column::start(*width)),
        [width, 1] => Some(Column::end(*width)),
        [width, 2] => Some(Column::center(*width)),
        _ => None,
    };
    columns.chunks(COLUMN_NUMBERS).map(column).collect()
}

/// The sheet, the same over buffers that are exact, longer and always enough, and as a string; one byte less is too short. Or the refusal, the
/// same whatever the buffer, and as a string.
fn sheet(input: impl AsRef<[u8]>, columns: &[u32]) -> Result<String, u64> {
    let input = input.as_ref();
    let made = lend(input, columns, enough(input, columns).min(4 * MAX_DATA));
    match &made {
        Ok(made) => {
            assert_eq!(lend(input, columns, made.len()).as_ref(), Ok(made));
            assert_eq!(lend(input, columns, made.len() + 1).as_ref(), Ok(made));
            assert_eq!(lend(input, columns, made.len() - 1), Err(21));
            assert_eq!(lend(input, columns, 0), Err(21));
        }
        Err(number) => assert_eq!(lend(input, columns, 0), Err(*number)),
    }
    let made = made.map(|made| String::from_utf8(made).unwrap());
    if let Some(columns) = typed(columns) {
        assert_eq!(tally_sheet(input, &columns).map_err(Refusal::number), made);
    }
    made
}

fn printed(input: &str, columns: &[u32], wanted: &str) {
    assert_eq!(sheet(input, columns).as_deref(), Ok(wanted), "{input:?}, {columns:?}");
}

fn refused(input: impl AsRef<[u8]>, columns: &[u32], number: u64) {
    let input = input.as_ref();
    assert_eq!(sheet(input, columns), Err(number), "{:?}, {columns:?}", String::from_utf8_lossy(&input[..input.len().min(80)]));
}

/// One column, so wide, at its start.
const ONE: [u32; 2] = [2, 0];
/// A first column for `boards`, and another.
const TWO: [u32; 4] = [9, 0, 2, 0];

#[test]
fn a_sheet() {
    let columns = [6, 0, 6, 1, 5, 2];
    let rows = "wood   boards kind \noak        12  ab  \nlong ~      7  abc \n2 19\n";
    printed("wood,boards,kind\noak,12,ab\nlong name,7,abc\n", &columns, rows);
    // The last 0A may lack.
    printed("wood,boards,kind\noak,12,ab\nlong name,7,abc", &columns, rows);
    // Every row but the last is exactly as wide as the columns and the gaps.
    let made = sheet("名前,boards,e\u{301}\n木材木材,12,木\n\u{200B},7,abcdef", &columns).unwrap();
    assert_eq!(made, "名前   boards   e\u{301}  \n木材~      12  木  \n\u{200B}            7 abcd~\n2 19\n");
    let lines: Vec<_> = made.split_terminator('\n').collect();
    assert!(lines[..3].iter().all(|line| text_width(line.as_bytes()) == 6 + 1 + 6 + 1 + 5));
}

#[test]
fn lines() {
    printed("", &ONE, "  \n0 0\n");
    printed("\n", &ONE, "  \n0 0\n");
    printed("\n\n", &ONE, "  \n  \n1 0\n");
    printed("\n\n\n", &ONE, "  \n  \n  \n2 0\n");
    printed("a", &ONE, "a \n0 0\n");
    printed("a\n", &ONE, "a \n0 0\n");
    printed("a\nb", &ONE, "a \nb \n1 0\n");
    printed("a\nb\n", &ONE, "a \nb \n1 0\n");
    printed("a\n\nb\n\n", &ONE, "a \n  \nb \n  \n3 0\n");
    printed(",", &[1, 0, 1, 0], "   \n0 0\n");
    // A space at an end of a cell is a part of it, and a quote is a letter.
    printed(" a,\"b\"", &[3, 0, 3, 1], " a  \"b\"\n0 0\n");
}

/// A cell of every width in a column of every small width, by all alignments.
#[test]
fn alignments() {
    for width in 1..=9 {
        for len in 0..=11 {
            let cell = &"abcdefghijk"[..len];
            let kept = if len <= width { cell.to_string() } else { format!("{}~", &cell[..width - 1]) };
            let missing = width - kept.len();
            for (alignment, before) in [(0, 0), (1, missing), (2, missing / 2)] {
                let row = format!("{}{kept}{}", " ".repeat(before), " ".repeat(missing - before));
                printed(cell, &[width as u32, alignment], &format!("{row}\n0 0\n"));
            }
        }
    }
    // As wide as can be, and as many.
    printed("a", &[80, 0], &format!("a{}\n0 0\n", " ".repeat(79)));
    printed("a", &[80, 1], &format!("{}a\n0 0\n", " ".repeat(79)));
    printed("a", &[80, 2], &format!("{}a{}\n0 0\n", " ".repeat(39), " ".repeat(40)));
    printed(&"a".repeat(81), &[80, 0], &format!("{}~\n0 0\n", "a".repeat(79)));
    printed(&",".repeat(11), &[1, 0].repeat(12), &format!("{}\n0 0\n", " ".repeat(23)));
    printed(&["b"; 12].join(","), &[80, 2].repeat(12), &format!("{}\n0 0\n", vec![format!("{}b{}", " ".repeat(39), " ".repeat(40)); 12].join(" ")));
}

#[test]
fn other_widths() {
    // A wide character needs two columns; what does not fit is made up for by a space.
    printed("木", &[1, 0], "~\n0 0\n");
    printed("木", &[2, 0], "木\n0 0\n");
    printed("木", &[3, 1], " 木\n0 0\n");
    printed("木材", &[2, 0], "~ \n0 0\n");
    printed("木材", &[2, 1], " ~\n0 0\n");
    printed("木材", &[3, 0], "木~\n0 0\n");
    printed("木材木", &[4, 1], " 木~\n0 0\n");
    printed("木材木", &[4, 2], "木~ \n0 0\n");
    printed("a😀b", &[3, 0], "a~ \n0 0\n");
    // Combining marks have no column of their own, and stay with what stays.
    printed("e\u{301}", &[1, 0], "e\u{301}\n0 0\n");
    printed("e\u{301}", &[2, 1], " e\u{301}\n0 0\n");
    printed("e\u{301}\u{302}xy", &[2, 0], "e\u{301}\u{302}~\n0 0\n");
    printed("xy\u{301}z", &[2, 0], "x~\n0 0\n");
    printed("xy\u{301}\u{302}", &[2, 0], "xy\u{301}\u{302}\n0 0\n");
    printed("\u{301}", &[1, 0], "\u{301} \n0 0\n");
    printed("\u{301}木", &[1, 0], "\u{301}~\n0 0\n");
    printed("\u{200B}", &[2, 2], " \u{200B} \n0 0\n");
    // Many bytes in a narrow column.
    printed(&"\u{301}".repeat(500), &[1, 1], &format!(" {}\n0 0\n", "\u{301}".repeat(500)));
}

/// The first column called `boards`, byte for byte, is the one that is summed.
#[test]
fn the_column_of_boards() {
    printed("boards\n3\n4\n", &[6, 1], "boards\n     3\n     4\n2 7\n");
    printed("boards", &[6, 1], "boards\n0 0\n");
    // Twice: the second holds anything.
    printed("boards,boards\n3,x\n4,", &[6, 0, 6, 0], "boards boards\n3      x     \n4            \n2 7\n");
    printed("x,boards,boards\n9,3,70000\n9,4,007", &[1, 0, 1, 0, 1, 0], "x ~ ~\n9 3 ~\n9 4 ~\n2 7\n");
    refused("boards,boards\n3,x\nx,4", &[6, 0, 6, 0], 41);
    // In the last of twelve.
    printed(&format!("{}boards\n{}5", ",".repeat(11), ",".repeat(11)), &[1, 0].repeat(12), &format!("{0}~\n{0}5\n1 5\n", " ".repeat(22)));
    // Missing, or called otherwise: 0, and any value.
    for name in [" boards", "boards ", "Boards", "BOARDS", "board", "boardss", "", "boards\u{301}", "\u{200B}boards", "boardt", "coards", "\"boards\""] {
        let made = sheet(format!("{name}\nx\n70000\n5"), &[1, 0]).unwrap();
        assert!(made.ends_with("\nx\n~\n5\n3 0\n"), "{name:?}");
    }
    // The name is read before the cut, and so are the numbers.
    printed("boards\n12\n65535", &[1, 0], "~\n~\n~\n2 65547\n");
    // A name is no number of boards, and the name in a line of values is no name.
    printed("x,boards\nboards,1\n7,2", &[1, 0, 1, 0], "x ~\n~ 1\n7 2\n2 3\n");
}

#[test]
fn numbers_of_boards() {
    for n in [0, 1, 9, 10, 19, 99, 100, 999, 1000, 9999, 10_000, 59_999, 60_000, 65_499, 65_529, 65_534, 65_535] {
        printed(&format!("boards\n{n}"), &[7, 0], &format!("boards \n{n:<7}\n1 {n}\n"));
    }
    let others = [
        "65536", "65540", "65600", "66000", "70000", "99999", "100000", "655350", "4294967296", "4295032831", "18446744073709551616", "00", "01", "007", "065535",
        "+1", "-1", "-0", " 1", "1 ", "1.0", "1e3", "0x1", "x", "1x", "x1", "", " ", "1 000", "１", "٣", "1\u{301}", "/", ":", "1/", "1:",
    ];
    for other in others {
        refused(format!("boards\n{other}\n"), &[7, 0], 41);
        refused(format!("a,boards,c\nx,1,y\nx,{other},y\nx,2,y"), &[7, 0, 7, 0, 7, 0], 41);
    }
    // Every number there is, and the most that a sum can be.
    let all: String = (0..=4094).map(|n| format!("\n{}", 65_535 - 16 * n)).collect();
    assert!(sheet(format!("boards{all}"), &[5, 1]).unwrap().ends_with(&format!("\n4095 {}\n", (0..=4094).map(|n| 65_535 - 16 * n).sum::<u64>())));
    let most = format!("boards{}", "\n65535".repeat(4095));
    assert!(sheet(most, &[5, 1]).unwrap().ends_with("\n65535\n4095 268365825\n"));
}

#[test]
fn control_characters() {
    for code in (0..=0x1F).chain(0x7F..=0x9F).filter(|code| *code != 0x0A) {
        let c = char::from_u32(code).unwrap();
        for input in [format!("{c}"), format!("a{c}"), format!("{c}a"), format!("abc{c}def"), format!("木{c}"), format!("a\nb{c}\nc")] {
            refused(input, &ONE, 40);
        }
        refused(format!("a,b{c}"), &[1, 0, 1, 0], 40);
        refused(format!("a{c},b"), &[1, 0, 1, 0], 40);
        refused(format!("boards\n1{c}"), &[9, 0], 40);
    }
    // A 0A ends a line, and a CR before it is a part of the cell.
    refused("a\r\nb\r\n", &ONE, 40);
    printed(" \u{A0}~", &[3, 0], " \u{A0}~\n0 0\n");
    printed("\u{2028}\u{AD}", &[3, 0], "\u{2028}\u{AD} \n0 0\n");
}

#[test]
fn ill_formed_cells() {
    let others: [&[u8]; 16] = [
        b"\x80", b"\xBF", b"\xC0\x80", b"\xC1\xBF", b"\xC3", b"\xE6", b"\xE6\x9C", b"\xE0\x80\x80", b"\xE0\x9F\xBF", b"\xED\xA0\x80", b"\xF0\x9F\x98",
        b"\xF0\x80\x80\x80", b"\xF4\x90\x80\x80", b"\xF5\x80\x80\x80", b"\xFE", b"\xFF",
    ];
    for other in others {
        for [before, behind] in [["", ""], ["ab", ""], ["", "ab"], ["木材", "木材"], ["a\nb", "\nc"]] {
            refused([before.as_bytes(), other, behind.as_bytes()].concat(), &ONE, 40);
        }
        refused([b"a,", other].concat(), &[1, 0, 1, 0], 40);
        refused([other, b",a"].concat(), &[1, 0, 1, 0], 40);
        refused([b"boards\n1", other].concat(), &[9, 0], 40);
    }
    // A comma or a 0A inside of a character is between two ill-formed cells.
    refused(b"\xE6\x9C,\xA8", &[2, 0, 2, 0], 40);
    refused(b"\xE6\x9C\n\xA8", &ONE, 40);
}

#[test]
fn numbers_of_cells() {
    for count in 1..=MAX_COLUMNS {
        let columns = [3, 0].repeat(count);
        let line = |cells: usize| vec!["ab"; cells].join(",");
        for cells in (1..=MAX_COLUMNS + 1).filter(|cells| *cells != count) {
            refused(line(cells), &columns, 41);
            refused(format!("{}\n{}", line(count), line(cells)), &columns, 41);
            refused(format!("{}\n{}\n", line(cells), line(count)), &columns, 41);
        }
        assert_eq!(sheet(line(count), &columns).unwrap().len(), 4 * count + "0 0\n".len());
        if count > 1 {
            // An empty line has one cell.
            refused("", &columns, 41);
            refused(format!("{}\n\n", line(count)), &columns, 41);
        }
    }
}

/// 39: columns, whatever the input and the buffer.
#[test]
fn columns() {
    let thirteen = [1, 0].repeat(13);
    let others: [&[u32]; 16] = [
        &[], &[1], &[1, 0, 1], &[0, 0], &[81, 0], &[1, 3], &[0, 3], &[u32::MAX, 0], &[1, u32::MAX], &[1, 0, 0, 0], &[1, 0, 81, 2], &[1, 0, 1, 3], &[81, 0, 1, 0],
        &[256 + 1, 0], &[1, 256], &thirteen,
    ];
    for columns in others {
        for input in [&b""[..], b"\n", b"a", b",", b"\x07", b"\xFF,", b"boards\nx", b",,,,,,,,,,,,"] {
            for bytes in [0, 99] {
                assert_eq!(lend(input, columns, bytes), Err(39), "{columns:?}");
            }
            if let Some(columns) = typed(columns) {
                assert_eq!(tally_sheet(input, &columns), Err(Refusal::TallyShape));
            }
        }
    }
    assert_eq!(lend(b"", &thirteen[..25], 99), Err(39));
    assert_eq!(tally_sheet("", &[Column::start(0)]), Err(Refusal::TallyShape));
    assert_eq!(tally_sheet("", &vec![Column::end(u32::MAX); 1000]), Err(Refusal::TallyShape));
    assert_eq!(Column::numbers(&[Column::start(1), Column::end(2), Column::center(3)]), [1, 0, 2, 1, 3, 2]);
    assert_eq!(Column { width: 4, alignment: Alignment::Center }, Column::center(4));
}

/// As many lines as there may be, that of the names among them, and one more.
#[test]
fn as_many_lines_as_there_may_be() {
    for (line, count) in [("", 1), ("7", 1), (",", 2), ("a,b", 2)] {
        let columns = [1, 2].repeat(count);
        let lines = |n: usize| vec![line; n].join("\n");
        for n in [MAX_TALLY_LINES - 1, MAX_TALLY_LINES] {
            // Without its last 0A an empty line is none.
            for (input, n) in [(lines(n) + "\n", n), (lines(n), if line.is_empty() { n - 1 } else { n })] {
                let made = sheet(input, &columns).unwrap();
                assert_eq!(made.split_terminator('\n').count(), n + 1);
                assert!(made.ends_with(&format!("\n{} 0\n", n - 1)));
            }
        }
        refused(lines(MAX_TALLY_LINES + 1) + "\n", &columns, 39);
        refused(lines(MAX_TALLY_LINES) + "\n\n", &columns, 39);
        refused(lines(MAX_TALLY_LINES) + "\nx", &columns, 39);
        // Whatever is in them.
        refused(format!("\x07,,\n{}\n", lines(MAX_TALLY_LINES)), &columns, 39);
    }
}

/// 1, 39, then line by line 41 for the cells, 40, 41 for the boards, then 9 and 21.
#[test]
fn order_of_refusals() {
    // In one line: the number of its cells, its cells, its boards.
    refused("\x07,a", &ONE, 41);
    refused(b"\xFF,a", &ONE, 41);
    refused("boards,a\nx,\x07", &TWO, 40);
    refused("a,boards\n\x07,x", &TWO, 40);
    refused("boards,a\n\x07,b", &TWO, 40);
    refused("boards,a\nx,\x07,", &TWO, 41);
    // The line before comes first.
    refused("boards,a\nx,b\n\x07,a", &TWO, 41);
    refused("boards,a\n\x07,b\nx,a", &TWO, 40);
    refused("\x07\na,b", &ONE, 40);
    refused("a,b\n\x07", &ONE, 41);
    refused("\x07,a\n1", &TWO, 40);
    refused("a\n\x07,b", &TWO, 41);
    refused("boards,\x07\nx,b", &TWO, 40);
    refused("boards,a\nx,b\n1", &TWO, 41);
    refused("boards,a\n1,\x07\n1", &TWO, 40);
    refused("boards,a\n1\n1,\x07", &TWO, 41);
    // 39 before all of them, and 1 before that, whatever the buffer.
    let long = vec![b'a'; MAX_DATA + 1];
    let lines = [&b"\x07,"[..], &vec![b'\n'; MAX_DATA]].concat();
    for bytes in [0, 99, 2 * MAX_DATA] {
        for columns in [&[][..], &ONE, &[1], &[0, 0], &[1, 3]] {
            assert_eq!(lend(&long, columns, bytes), Err(1));
            assert_eq!(lend(&lines, columns, bytes), Err(1));
            assert_eq!(lend(&lines[1..MAX_DATA], columns, bytes), Err(39));
        }
        assert_eq!(lend(b"\x07,", &[0, 0], bytes), Err(39));
        // The sheet would be over the limit: 4,096 rows of 81 * 12 bytes.
        let over = b",,,,,,,,,,,\n".repeat(MAX_TALLY_LINES);
        assert_eq!(lend(&over, &[80, 1].repeat(12), bytes), Err(9));
        assert_eq!(lend(&over, &[81, 1].repeat(12), bytes), Err(39));
        assert_eq!(lend(&[&over[..over.len() - 1], b"\x07"].concat(), &[80, 1].repeat(12), bytes), Err(40));
        assert_eq!(lend(&over[..over.len() - 2], &[80, 1].repeat(12), bytes), Err(41));
    }
    assert_eq!(tally_sheet(&long, &[]), Err(Refusal::DataTooLong));
    assert_eq!(tally_sheet(",".repeat(11), &[Column::start(80); 12]).map(|sheet| sheet.len()), Ok(81 * 12 + 4));
    assert_eq!(tally_sheet([",,,,,,,,,,,"; 2000].join("\n"), &[Column::start(80); 12]), Err(Refusal::ResultOverLimit));
}

/// Input and sheet as long as they may be, and the sheet one byte longer.
#[test]
fn at_the_limit_of_data() {
    // Marks without width: the sheet is one cell, a space, 0A and the last row.
    let marks = |bytes: usize| if bytes % 2 == 0 { "\u{301}".repeat(bytes / 2) } else { "\u{301}".repeat(bytes / 2 - 1) + "\u{200B}" };
    let most = marks(MAX_DATA - 6);
    printed(&most, &[1, 0], &format!("{most} \n0 0\n"));
    refused(marks(MAX_DATA - 5), &[1, 0], 9);
    refused(marks(MAX_DATA), &[1, 0], 9);
    printed(&"a".repeat(MAX_DATA), &[1, 0], "~\n0 0\n");
    printed(&"a".repeat(MAX_DATA - 1), &[80, 1], &format!("{}~\n0 0\n", "a".repeat(79)));
    refused("a".repeat(MAX_DATA + 1), &[1, 0], 1);
    // Rows of 256 bytes: 4,096 of them are at the limit without the last row. Of 4,095 it leaves 249 bytes for marks.
    let columns = [80, 0, 80, 0, 80, 0, 12, 0];
    refused("a,b,c,d\n".repeat(4096), &columns, 9);
    let with_marks = |bytes: usize| format!("{}a,b,c,d\n{}", marks(bytes), "a,b,c,d\n".repeat(4094));
    assert_eq!(sheet(with_marks(249), &columns).unwrap().len(), MAX_DATA);
    refused(with_marks(250), &columns, 9);
}

/// What the calls for one cell leave of it: cut with the ellipsis, then filled.
fn laid(cell: &[u8], width: u32, alignment: u32) -> Vec<u8> {
    let view = |data| View { data, ..View::default() };
    let (mut cut, mut out) = (vec![0; cell.len() + 1], vec![0; cell.len() + 81]);
    let left = lent::write_truncated_end(view(cell), view(b"~"), width, Buffers { data: &mut cut, ..Buffers::default() }).unwrap();
    cut.truncate(left.used.data);
    let fill = [lent::write_padded_end, lent::write_padded_start, lent::write_padded_centered][alignment as usize];
    let left = fill(view(&cut), view(b" "), width, Buffers { data: &mut out, ..Buffers::default() }).unwrap();
    out.truncate(left.used.data);
    out
}

/// Random sheets: letters, wide characters and marks, and numbers for boards; each row must be its cells one by one.
#[test]
fn as_cell_by_cell() {
    let mut numbers = Numbers(0x9E37_79B9_7F4A_7C15);
    for _ in 0..3000 {
        let most = [4, 4, 4, 12][numbers.below(4)];
        let count = 1 + numbers.below(most);
        let columns: Vec<_> = (0..count).flat_map(|_| [1 + numbers.below(12) as u32, numbers.below(3) as u32]).collect();
        let boards = numbers.below(count + 1);
        let letters = ["a", "b ", "木", "材", "\u{301}", "é", "😀", "\u{200B}", "~", " "];
        let text = |numbers: &mut Numbers| (0..numbers.below(9)).map(|_| letters[numbers.below(letters.len())]).collect::<String>();
        let (mut lines, mut sum) = (vec![], 0);
        for n in 0..1 + numbers.below(6) {
            let cell = |k: usize| match (k == boards, n) {
                (true, 0) => "boards".to_string(),
                (true, _) => {
                    let most = [10, 1000, 65_536][numbers.below(3)];
                    let boards = numbers.below(most);
                    sum += boards;
                    boards.to_string()
                }
                _ => text(&mut numbers),
            };
            lines.push((0..count).map(cell).collect::<Vec<_>>());
        }
        let mut wanted = vec![];
        for line in &lines {
            let cells: Vec<_> = line.iter().zip(columns.chunks(2)).map(|(cell, column)| laid(cell.as_bytes(), column[0], column[1])).collect();
            wanted.extend(cells.join(&b' '));
            wanted.push(b'\n');
        }
        let wanted = format!("{}{} {sum}\n", String::from_utf8(wanted).unwrap(), lines.len() - 1);
        let input = lines.iter().map(|line| line.join(",")).collect::<Vec<_>>().join("\n");
        printed(&(input.clone() + "\n"), &columns, &wanted);
        // Without its last 0A an empty line is none.
        if !input.ends_with('\n') {
            printed(&input, &columns, &wanted);
        }
    }
}
