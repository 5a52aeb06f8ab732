//! Wrapping texts that are hard for it, at 64 KiB and 1 MiB: nanoseconds a byte of the library, with a line list that surely has room and with one
//! that is exactly long enough, which must be found out by counting first. Then the calls of the line index, from no 0A to nothing else, and
//! pages of 64 cells, at 64 KiB and 1 MB; then tally sheets of 1,000, 2,000 and 4,000 lines. Linear time: the sizes cost about the same a byte.
//! Words are `wrapping`, `line_index`, `cells` and `tally`; without any it is all of them.
use std::time::{Duration, Instant};

use ruszvedok::MAX_CELLS;
use ruszvedok::lent::{CELL_NUMBERS, LINE_NUMBERS, View, build_line_index, extend_line_index, line_at, place_of, wrap_bytes, write_tally, write_truncated_cells};

const SIZES: [usize; 2] = [1 << 16, 1 << 20];
const ROUNDS: usize = 15;

/// Name, what the text repeats, width, breaking.
const TEXTS: &[(&str, &[u8], u32, bool)] = &[
    ("no space, width 1, breaking", b"x", 1, true),
    ("no space, width 80, breaking", b"x", 80, true),
    ("no space, width 80", b"x", 80, false),
    ("short words, width 80", b"oak 12 ft ", 80, false),
    ("words as wide as the line, width 4", b"oaks firs ", 4, false),
    ("wide characters, width 1, breaking", "木".as_bytes(), 1, true),
    ("zero-width characters, width 1, breaking", "\u{301}".as_bytes(), 1, true),
    ("ill-formed bytes, width 1, breaking", b"\xE6\x9C", 1, true),
    ("spaces", b" ", 80, false),
    ("line ends", b"\n", 80, false),
];

/// Name, and what the text repeats.
const INDEXED: &[(&str, &[u8])] = &[
    ("no line end", b"x"),
    ("lines of 80 bytes", b"0123456789abcdef0123456789abcdef0123456789abcdef0123456789abcdef0123456789abcde\n"),
    ("lines of 10 bytes", b"oak 12 ft\n"),
    ("line ends", b"\n"),
];

/// Bytes of pages of cells: with an ellipsis for each cell they are within the limit.
const PAGES: [usize; 2] = [1 << 16, 1_000_000];

/// Name, and what the cells repeat.
const CELLS: &[(&str, &[u8])] = &[
    ("letters", b"x"),
    ("words", b"oak 12 ft "),
    ("wide characters", "木".as_bytes()),
    ("zero-width characters", "\u{301}".as_bytes()),
    ("ill-formed bytes", b"\xE6\x9C"),
];

/// Lines of a tally sheet.
const LINES: [usize; 3] = [1000, 2000, 4000];

/// Name, columns, names, and what comes that many times: a line, or a part of the only line.
const SHEETS: &[(&str, usize, &str, &str)] = &[
    ("4 cells of letters", 4, "wood,grade,boards,length\n", "oak 12 f,grade ab,16,spruce\n"),
    ("4 cells of wide characters", 4, "木材,木,boards,材\n", "木材木,木,7,木材\n"),
    ("4 cells of accents", 4, "bôis,é,boards,ñ\n", "é\u{301}é,ôakß,120,ñandú\n"),
    ("4 long cells", 4, "a,b,boards,d\n", "a cell of sixty bytes that is cut to ten columns at its end.,a,9,another one of forty bytes that is cut too\n"),
    ("12 cells, boards last", 12, ",,,,,,,,,,,boards\n", "a,bc,def,gh,i,jk,lmn,op,q,rs,tuv,12345\n"),
    ("12 empty cells", 12, "", ",,,,,,,,,,,\n"),
    ("one empty cell", 1, "", "\n"),
    ("one line of one cell of letters", 1, "", "0123456789abcdef0123456789abcdef0123456789abcdef0123456789abcdef"),
    ("one line of one cell of marks", 1, "", "\u{301}\u{301}\u{301}\u{301}\u{301}\u{301}\u{301}\u{301}"),
];

/// The shortest time of a call that is not refused, a byte of the text.
fn nanoseconds(size: usize, mut is_answered: impl FnMut() -> bool) -> f64 {
    let mut shortest = Duration::MAX;
    for _ in 0..ROUNDS {
        let start = Instant::now();
        let answered = is_answered();
        shortest = shortest.min(start.elapsed());
        assert!(answered);
    }
    shortest.as_secs_f64() * 1e9 / size as f64
}

fn main() {
    const PARTS: [(&str, fn()); 4] = [("wrapping", wrapping), ("line_index", line_index), ("cells", cells), ("tally", tally)];
    let names: Vec<_> = std::env::args().skip(1).collect();
    if let Some(name) = names.iter().find(|name| PARTS.iter().all(|part| part.0 != **name)) {
        eprintln!("linear: no part {name}");
        std::process::exit(2);
    }
    let asked = PARTS.iter().filter(|part| names.is_empty() || names.iter().any(|name| name == part.0));
    for (k, part) in asked.enumerate() {
        if k > 0 {
            println!();
        }
        (part.1)();
    }
}

/// Columns ten wide, their alignments in turns, with a buffer that surely has room and with one that is exactly long enough; nanoseconds a byte
/// of the input.
fn tally() {
    let heads = ["always enough", "exact buffer"].map(|name| format!("{name}, {} lines | {} | {}", LINES[0], LINES[1], LINES[2]));
    println!("| tally sheet | {} |\n|---|{}", heads.join(" | "), "---|".repeat(2 * LINES.len()));
    for &(name, count, names, unit) in SHEETS {
        let columns: Vec<_> = (0..count as u32).flat_map(|k| [10, k % 3]).collect();
        let times = LINES.map(|lines| {
            let input = format!("{names}{}", unit.repeat(lines)).into_bytes();
            let mut out = vec![0; input.len() + (lines + 1) * count * 10 + 16];
            let roomy = nanoseconds(input.len(), || write_tally(&input, &columns, &mut out).is_ok());
            let left = write_tally(&input, &columns, &mut out).unwrap().used.data;
            out.truncate(left);
            [roomy, nanoseconds(input.len(), || write_tally(&input, &columns, &mut out).is_ok())]
        });
        let row: Vec<_> = (0..2).flat_map(|k| times.map(|time| format!("{:.2}", time[k]))).collect();
        println!("| {name} | {} |", row.join(" | "));
    }
}

/// 64 cells, none of which is cut, or each to half of its width, with a data buffer that surely has room and with one that is exactly long
/// enough; nanoseconds a byte of the data.
fn cells() {
    let calls = ["whole", "whole, exact buffer", "cut", "cut, exact buffer"];
    println!("| 64 cells | {} |\n|---|{}", calls.map(|name| format!("{name}, 64 KiB | 1 MB")).join(" | "), "---|".repeat(2 * calls.len()));
    for &(name, unit) in CELLS {
        let [small, large] = PAGES.map(|size| page_times(&unit.repeat(size / MAX_CELLS / unit.len())));
        let times: Vec<_> = small.iter().zip(large).map(|(small, large)| format!("{small:.2} | {large:.2}")).collect();
        println!("| {name} | {} |", times.join(" | "));
    }
}

/// The times of a page of 64 times this cell.
fn page_times(cell: &[u8]) -> Vec<f64> {
    const ELLIPSIS: &[u8] = b"..";
    let (text, ends) = (cell.repeat(MAX_CELLS), (1..=MAX_CELLS).map(|k| (k * cell.len()) as u32).collect::<Vec<_>>());
    let mut list = vec![0; MAX_CELLS * CELL_NUMBERS];
    let mut times = vec![];
    for width in [u32::MAX, ruszvedok::text_width(cell) as u32 / 2] {
        let mut out = vec![0; text.len() + MAX_CELLS * ELLIPSIS.len()];
        times.push(nanoseconds(text.len(), || write_truncated_cells(&text, &ends, ELLIPSIS, width, &mut out, &mut list).is_ok()));
        let left = write_truncated_cells(&text, &ends, ELLIPSIS, width, &mut out, &mut list).unwrap().used.data;
        out.truncate(left);
        times.push(nanoseconds(text.len(), || write_truncated_cells(&text, &ends, ELLIPSIS, width, &mut out, &mut list).is_ok()));
    }
    times
}

/// The list of `build_line_index` surely has room or is exactly long enough; extending is by the last tenth, and the line and the byte asked
/// for are the last ones.
fn line_index() {
    let calls = ["`build_line_index`", "exact list", "`extend_line_index`", "`line_at`", "`place_of`"];
    println!("| text | {} |\n|---|{}", calls.map(|name| format!("{name}, 64 KiB | 1 MiB")).join(" | "), "---|".repeat(2 * calls.len()));
    for &(name, unit) in INDEXED {
        let [small, large] = SIZES.map(|size| {
            let text = unit.repeat(size / unit.len());
            let (content, earlier) = (View { data: &text, ..View::default() }, text.len() * 9 / 10);
            let mut list = vec![0; text.len() + 1];
            let used = build_line_index(View { data: &text[..earlier], ..content }, &mut list).unwrap().number as usize;
            let extending = nanoseconds(text.len(), || extend_line_index(content, earlier, &mut list, used).is_ok());
            let roomy = nanoseconds(text.len(), || build_line_index(content, &mut list).is_ok());
            let count = build_line_index(content, &mut list).unwrap().number as usize;
            list.truncate(count);
            let exact = nanoseconds(text.len(), || build_line_index(content, &mut list).is_ok());
            let line = nanoseconds(text.len(), || line_at(content, &list, list.len() - 1).is_ok());
            let place = nanoseconds(text.len(), || place_of(content, &list, text.len()).is_ok());
            [roomy, exact, extending, line, place]
        });
        let cells: Vec<_> = small.iter().zip(large).map(|(small, large)| format!("{small:.2} | {large:.2}")).collect();
        println!("| {name} | {} |", cells.join(" | "));
    }
}

fn wrapping() {
    println!("| text | roomy list, 64 KiB | 1 MiB | exact list, 64 KiB | 1 MiB |\n|---|---|---|---|---|");
    for &(name, unit, width, break_words) in TEXTS {
        let mut row = format!("| {name} |");
        for exact in [false, true] {
            for size in SIZES {
                let text = unit.repeat(size / unit.len());
                let mut lines = vec![0; LINE_NUMBERS * (text.len() + 1)];
                if exact {
                    let count = wrap_bytes(&text, width, break_words, &mut lines).unwrap().number as usize;
                    lines.truncate(LINE_NUMBERS * count);
                }
                row += &format!(" {:.2} |", nanoseconds(text.len(), || wrap_bytes(&text, width, break_words, &mut lines).is_ok()));
            }
        }
        println!("{row}");
    }
}
