//! Makes the second part of the lines that `crates/vectors` replays, and what it must print: `vectors FOLDER [--seed N]` writes FOLDER/stdin from its
//! line MARK on, and FOLDER/stdout. What a line expects comes from the originals and from document 01's refusals; the library is never asked.
//! How a line is read: `crates/vectors/src/main.rt`. The same seed gives the same lines.
use std::collections::{HashMap, HashSet};
use std::fmt::Write as _;

use bench::inputs::{About, Numbers, damaged};
use bench::recordings::{Expected, content, fault, label_for, listed, maybe_damaged, recording, scattered, with_added};
use oracle::{Lists, Recording, Replacement};

/// Makes one vector of a call.
type Maker = fn(&mut Numbers) -> Vector;

const CALLS: &[(&str, Maker)] = &[
    ("text_width", |n| of_text(n, |s, _| (oracle::text_width(s), 0), false)),
    ("well_formed", |n| of_text(n, |s, _| (std::str::from_utf8(s).is_ok() as usize, 0), false)),
    ("truncate_end_pos", |n| of_text(n, oracle::truncate_end_pos_bytes, true)),
    ("truncate_start_pos", |n| of_text(n, oracle::truncate_start_pos_bytes, true)),
    ("zero_width_len", |n| of_text(n, |s, _| (oracle::count_start_zero_width_chars_bytes(s), 0), false)),
    ("replay", replay),
    ("write_truncated_start", |n| truncated(n, oracle::write_truncated_start)),
    ("write_truncated_end", |n| truncated(n, oracle::write_truncated_end)),
    ("write_padded_start", |n| padded(n, oracle::write_padded_start)),
    ("write_padded_end", |n| padded(n, oracle::write_padded_end)),
    ("write_padded_centered", |n| padded(n, oracle::write_padded_centered)),
    ("write_indented", write_indented),
    ("wrap_bytes", wrap_bytes),
    ("write_wrapped", write_wrapped),
    ("write_replaced", write_replaced),
    ("elide_start", |n| elide(n, oracle::elide_start)),
    ("elide_end", |n| elide(n, oracle::elide_end)),
    ("complete_newline", complete_newline),
    ("write", |n| adding(n, 0)),
    ("push_label", |n| adding(n, 1)),
    ("pop_label", |n| adding(n, 2)),
    ("raw", |n| adding(n, 3)),
];

/// The program's names after these calls; only the first part of the list has lines of them.
const OTHERS: [&str; 12] = [
    "char_width",
    "read_char",
    "trim_start_zero_width_chars",
    "write_tabs_expanded",
    "write_unindented",
    "write_for_office",
    "write_for_floor",
    "build_line_index",
    "extend_line_index",
    "line_at",
    "place_of",
    "write_truncated_cells",
];

/// What the first line of the second part starts with.
const MARK: &str = "# ── Made by bench/vectors";

/// The first calls, which are on a text and have no refusal.
const TEXTS: usize = 5;

/// Which vectors are kept.
struct Part {
    /// How many a call has, and how many of them are refused if it refuses at all.
    count: usize,
    refused: usize,
    /// The longest line, in bytes.
    longest: usize,
    /// Only those that show what a picture does.
    pictures: bool,
}

const OF_EACH_CALL: Part = Part { count: 200, refused: 40, longest: usize::MAX, pictures: false };
/// Of the calls that measure (document 02, Q-5). Few and short: the gate reads them in each run.
const WITH_PICTURES: Part = Part { count: 10, refused: 1, longest: 140, pictures: true };

/// The longest lists of one line, and of the whole: the program's buffer is as long.
const MOST_BYTES: usize = 256;
const MOST_NUMBERS: usize = 128;
const MOST_LIST: usize = 1 << 20;

/// What holds each place of a lent buffer that is not written.
const BYTE: u8 = 0xA5;
const NUMBER: u32 = 0xA5A5_A5A5;

/// What a line holds: what the call is given, and what it must answer and leave. The lent buffers are here in full.
#[derive(Clone, Default)]
struct Vector {
    content: Lists,
    second: Lists,
    /// Of the calls that add: how much of the content's buffers is used.
    used: Vec<usize>,
    number: u64,
    flag: bool,
    answer: [u64; 5],
    out: Lists,
    lines: Vec<u32>,
    /// How much of each buffer holds a result.
    kept: [usize; 4],
}

impl Vector {
    fn fits(&self) -> bool {
        let lists = [&self.content, &self.second, &self.out];
        lists.iter().all(|l| l.data.len() <= MOST_BYTES && l.entries.len() <= MOST_NUMBERS && l.text.len() <= MOST_BYTES)
            && self.lines.len() <= MOST_NUMBERS
    }

    /// Whether a text that is measured has the two bytes with which every picture starts, and what is left is neither nothing nor the content as it was:
    /// a cut is inside the text, there is more than one line, a refusal is for a size.
    fn shows_pictures(&self, call: usize) -> bool {
        let (name, data, left) = (CALLS[call].0, &self.content.data, &self.out.data[..self.kept[0]]);
        let begins = |text: &[u8]| text.windows(2).any(|pair| pair == [0xF0, 0x9F]);
        // Of a fill no width is asked.
        (begins(data) || begins(&self.second.data) && !name.contains("padded"))
            && match name {
                "text_width" => true,
                _ if call < TEXTS => (1..data.len() as u64).contains(&self.answer[0]),
                _ if self.answer[0] != 0 => self.answer[0] >= 9,
                "wrap_bytes" => self.answer[4] > 1,
                _ => !left.is_empty() && left != data,
            }
    }

    /// The call's name and the fields that it has.
    fn line(&self, call: usize, right: bool) -> String {
        let name = CALLS[call].0;
        let adds = !self.used.is_empty();
        let mut made = format!("{}{name}", if right { "" } else { "!" });
        let mut add = |key: &str, list: String| {
            if !list.is_empty() {
                write!(made, " {key}={list}").unwrap();
            }
        };
        let (content, second, out) = (&self.content, &self.second, &self.out);
        if adds {
            let held = |k: usize, len: usize| self.used[k].min(len);
            add("data", lent(&content.data, held(0, content.data.len()), BYTE, bytes));
            add("entries", lent(&content.entries, held(1, content.entries.len()), NUMBER, entries));
            add("text", lent(&content.text, held(2, content.text.len()), BYTE, bytes));
            add("used", self.used.iter().map(usize::to_string).collect::<Vec<_>>().join(","));
        } else {
            add("data", bytes(&content.data));
            add("entries", entries(&content.entries));
            add("text", bytes(&content.text));
        }
        match name {
            "write_replaced" => {
                add("records", groups(&second.entries, 4));
                add("new", bytes(&second.data));
            }
            _ => {
                add(if adds { "added" } else { "second" }, bytes(&second.data));
                add("second_entries", entries(&second.entries));
                add("second_text", bytes(&second.text));
            }
        }
        let wide = takes_width(name);
        add("width", if wide { self.number.to_string() } else { String::new() });
        add("break", if name.contains("wrap") { (self.flag as u8).to_string() } else { String::new() });
        let numbers = if call < TEXTS { if wide { 2 } else { 1 } } else if self.answer[0] == 0 || self.answer[1..] != [0; 4] { 5 } else { 1 };
        add("answer", self.answer[..numbers].iter().map(u64::to_string).collect::<Vec<_>>().join(","));
        let (plain, lists) = (name.starts_with("elide") || name == "complete_newline", name.contains("wrap"));
        if call >= TEXTS && name != "wrap_bytes" {
            add("out", lent(&out.data, self.kept[0], BYTE, bytes));
        }
        if call >= TEXTS && name != "wrap_bytes" && !plain {
            add("out_entries", lent(&out.entries, self.kept[1], NUMBER, entries));
            add("out_text", lent(&out.text, self.kept[2], BYTE, bytes));
        }
        if lists {
            add("lines", lent(&self.lines, self.kept[3], NUMBER, |s| groups(s, 3)));
        }
        made
    }

    /// One place of what is expected changed: a number of the answer, or a byte or a number of a buffer, also beyond the result.
    fn spoil(&mut self, numbers: &mut Numbers) {
        let sizes = [1, self.out.data.len(), self.out.entries.len(), self.out.text.len(), self.lines.len()];
        let kinds: Vec<usize> = (0..5).filter(|k| sizes[*k] != 0).collect();
        let kind = kinds[numbers.within(0, kinds.len() as u64 - 1) as usize];
        let at = numbers.within(0, sizes[kind] as u64 - 1) as usize;
        match kind {
            // The refusal, or the first number that is not 0.
            0 => self.answer[self.answer.iter().position(|n| *n != 0).unwrap_or(0)] += 1,
            1 => self.out.data[at] ^= 1,
            2 => self.out.entries[at] ^= 1,
            3 => self.out.text[at] ^= 1,
            _ => self.lines[at] ^= 1,
        }
    }
}

fn takes_width(name: &str) -> bool {
    ["trunc", "padded", "wrap", "elide"].iter().any(|part| name.contains(part))
}

/// A lent buffer: its length, and what its first places hold. Those that are left out were not written.
fn lent<T: Copy + PartialEq>(buffer: &[T], kept: usize, unwritten: T, list: impl Fn(&[T]) -> String) -> String {
    let written = buffer.iter().rposition(|x| *x != unwritten).map_or(0, |last| last + 1);
    format!("{}:{}", buffer.len(), list(&buffer[..written.max(kept)]))
}

/// A text between quotes. Printable ASCII, Latin letters and characters of two columns (but the wide space) stand for themselves.
fn bytes(s: &[u8]) -> String {
    if s.is_empty() {
        return String::new();
    }
    let (mut made, mut at) = (String::from("\""), 0);
    while at < s.len() {
        match s[at] {
            b'\n' => made.push_str("\\n"),
            b'\t' => made.push_str("\\t"),
            b'\\' => made.push_str("\\\\"),
            b @ 0x20..=0x7E if b != b'"' => made.push(b as char),
            b => match character(&s[at..]).filter(|c| shown(*c)) {
                Some(c) => {
                    made.push(c);
                    at += c.len_utf8() - 1;
                }
                None => write!(made, "\\x{b:02x}").unwrap(),
            },
        }
        at += 1;
    }
    made + "\""
}

/// The well-formed character of more than one byte that a text starts with.
fn character(s: &[u8]) -> Option<char> {
    (2..=s.len().min(4)).find_map(|n| std::str::from_utf8(&s[..n]).ok()).and_then(|t| t.chars().next())
}

fn shown(c: char) -> bool {
    ('\u{C0}'..='\u{24F}').contains(&c) || oracle::text_width(c.to_string().as_bytes()) == 2 && c != '\u{3000}'
}

/// Numbers in groups.
fn groups(s: &[u32], size: usize) -> String {
    s.chunks(size).map(|g| g.iter().map(u32::to_string).collect::<Vec<_>>().join(",")).collect::<Vec<_>>().join(";")
}

/// Entries, with words for their kinds.
fn entries(s: &[u32]) -> String {
    let word = |(k, n): (usize, &u32)| match (k, n) {
        (1, 0) => "push".into(),
        (1, 1) => "pop".into(),
        (1, 2) => "raw".into(),
        _ => n.to_string(),
    };
    s.chunks(4).map(|e| e.iter().enumerate().map(word).collect::<Vec<_>>().join(",")).collect::<Vec<_>>().join(";")
}

/// The first that `make` gives within a length: 16 bytes mostly, 40 in one of eight.
fn short<T>(numbers: &mut Numbers, mut make: impl FnMut(&mut Numbers) -> T, len: impl Fn(&T) -> usize) -> T {
    let most = if numbers.within(0, 7) == 0 { 40 } else { 16 };
    loop {
        let made = make(numbers);
        if len(&made) <= most {
            return made;
        }
    }
}

fn text(numbers: &mut Numbers) -> Vec<u8> {
    short(numbers, |n| if n.within(0, 1) == 0 { damaged(n) } else { content(n) }, Vec::len)
}

/// A text that is well-formed, mostly.
fn plain(numbers: &mut Numbers) -> Vec<u8> {
    let made = text(numbers);
    if numbers.within(0, 9) == 0 { made } else { String::from_utf8_lossy(&made).into_owned().into_bytes() }
}

/// A recording in the library's form, its fault, and the recording that it is if it has none.
fn input(numbers: &mut Numbers, most: u64) -> (Lists, u64, Recording) {
    let made = short(numbers, |n| recording(n, most), |r| r.data.len());
    let mut lists = scattered(&made, numbers);
    maybe_damaged(&mut lists, numbers);
    let fault = fault(&lists);
    let recording = if fault == 0 { Recording::from_lists(&lists.data, &lists.entries, &lists.text).unwrap() } else { Recording::default() };
    (lists, fault, recording)
}

/// A width about that of the text, or now and then the largest.
fn width_about(s: &[u8], more: u64, numbers: &mut Numbers) -> usize {
    match numbers.within(0, 29) {
        0 => u32::MAX as usize,
        _ => numbers.within(0, oracle::text_width(s) as u64 + more) as usize,
    }
}

fn of_text(numbers: &mut Numbers, rust: fn(&[u8], usize) -> (usize, usize), wide: bool) -> Vector {
    let data = text(numbers);
    let max = if wide { width_about(&data, 2, numbers) } else { 0 };
    let (first, second) = rust(&data, max);
    let content = Lists { data, ..Lists::default() };
    Vector { content, number: max as u64, answer: [first as u64, second as u64, 0, 0, 0], ..Vector::default() }
}

/// The buffers that a call is lent.
enum Lent {
    Data,
    Recording,
    Lines,
    RecordingAndLines,
}

/// What is left in buffers of some lengths, filled with A5 before.
fn lend(lent: Lent, made: Vector, expected: Expected, numbers: &mut Numbers) -> Vector {
    let room = expected.room(numbers);
    let room = match lent {
        Lent::Data => (room.0, 0, 0, 0),
        Lent::Recording => (room.0, room.1, room.2, 0),
        Lent::Lines => (0, 0, 0, room.3),
        Lent::RecordingAndLines => room,
    };
    let got = expected.answer(room);
    let (result, lines) = if got.refusal == 0 { (expected.result, expected.lines) } else { Default::default() };
    Vector {
        answer: [got.refusal, got.data, got.entries, got.text, got.number],
        kept: [result.data.len(), result.entries.len(), result.text.len(), lines.len()],
        out: Lists { data: filled(result.data, room.0, BYTE), entries: filled(result.entries, room.1, NUMBER), text: filled(result.text, room.2, BYTE) },
        lines: filled(lines, room.3, NUMBER),
        ..made
    }
}

fn filled<T: Clone>(mut front: Vec<T>, len: usize, beyond: T) -> Vec<T> {
    front.resize(len, beyond);
    front
}

fn replay(numbers: &mut Numbers) -> Vector {
    let (lists, fault, content) = input(numbers, 4);
    let result = oracle::replay(&content).to_lists();
    let expected = Expected { faults: vec![fault], result, lines: vec![], number: 0 };
    lend(Lent::Recording, Vector { content: lists, ..Vector::default() }, expected, numbers)
}

fn truncated(numbers: &mut Numbers, rust: fn(&Recording, &Recording, usize) -> (Recording, usize)) -> Vector {
    let (lists, fault, content) = input(numbers, 4);
    let (second_lists, second_fault, second) = input(numbers, 3);
    let width = width_about(&lists.data, 3, numbers);
    let (result, number) = if (fault, second_fault) == (0, 0) { rust(&content, &second, width) } else { Default::default() };
    let expected = Expected { faults: vec![fault, second_fault], result: result.to_lists(), lines: vec![], number: number as u64 };
    lend(Lent::Recording, Vector { content: lists, second: second_lists, number: width as u64, ..Vector::default() }, expected, numbers)
}

fn padded(numbers: &mut Numbers, rust: fn(&Recording, &Recording, usize) -> Recording) -> Vector {
    let (lists, fault, content) = input(numbers, 4);
    let (second_lists, second_fault, second) = input(numbers, 3);
    let width = width_about(&lists.data, 6, numbers);
    // Padding to the largest width passes the limit, or writes an empty fill four thousand million times, which is as twice.
    let huge = width == u32::MAX as usize;
    let rust_width = if huge { oracle::text_width(&lists.data) + 2 } else { width };
    let over = if huge && !second.data.is_empty() { 9 } else { 0 };
    let result = if (fault, second_fault) == (0, 0) { rust(&content, &second, rust_width) } else { Default::default() };
    let expected = Expected { faults: vec![fault, second_fault, over], result: result.to_lists(), lines: vec![], number: 0 };
    lend(Lent::Recording, Vector { content: lists, second: second_lists, number: width as u64, ..Vector::default() }, expected, numbers)
}

fn write_indented(numbers: &mut Numbers) -> Vector {
    let (lists, fault, content) = input(numbers, 4);
    let (second_lists, second_fault, second) = input(numbers, 3);
    let result = if (fault, second_fault) == (0, 0) { oracle::write_indented(&content, &second) } else { Default::default() };
    let expected = Expected { faults: vec![fault, second_fault], result: result.to_lists(), lines: vec![], number: 0 };
    lend(Lent::Recording, Vector { content: lists, second: second_lists, ..Vector::default() }, expected, numbers)
}

fn wrap_width(data: &[u8], numbers: &mut Numbers) -> usize {
    if numbers.within(0, 1) == 0 { numbers.within(0, 6) as usize } else { width_about(data, 2, numbers) }
}

fn wrap_bytes(numbers: &mut Numbers) -> Vector {
    let data = text(numbers);
    let (width, flag) = (wrap_width(&data, numbers), numbers.within(0, 1) == 0);
    let (number, lines) = listed(&data, width, flag);
    let expected = Expected { faults: vec![], result: Lists::default(), lines, number };
    let content = Lists { data, ..Lists::default() };
    lend(Lent::Lines, Vector { content, number: width as u64, flag, ..Vector::default() }, expected, numbers)
}

fn write_wrapped(numbers: &mut Numbers) -> Vector {
    let (lists, fault, content) = input(numbers, 4);
    let (width, flag) = (wrap_width(&lists.data, numbers), numbers.within(0, 1) == 0);
    let (number, lines) = listed(&content.data, width, flag);
    let result = oracle::write_wrapped(&content, width, flag).to_lists();
    let expected = Expected { faults: vec![fault], result, lines, number };
    lend(Lent::RecordingAndLines, Vector { content: lists, number: width as u64, flag, ..Vector::default() }, expected, numbers)
}

/// Document 01's refusal 8.
fn records_fault(records: &[Replacement], data: usize, text: usize) -> u64 {
    let mut at = 0;
    for r in records {
        if r.start > r.end || r.end as usize > data || r.start < at || r.from > r.to || r.to as usize > text {
            return 8;
        }
        at = r.end;
    }
    0
}

fn write_replaced(numbers: &mut Numbers) -> Vector {
    let (lists, fault, content) = input(numbers, 4);
    let new = text(numbers);
    let (count, mut at) = (numbers.within(0, 4), 0);
    let mut records = vec![];
    for _ in 0..count {
        let start = numbers.within(at, lists.data.len() as u64);
        let end = numbers.within(start, (start + 5).min(lists.data.len() as u64));
        let from = numbers.within(0, new.len() as u64);
        let to = numbers.within(from, new.len() as u64);
        at = end;
        records.push(Replacement { start: start as u32, end: end as u32, from: from as u32, to: to as u32 });
    }
    if count > 0 && numbers.within(0, 11) == 0 {
        let r = &mut records[numbers.within(0, count - 1) as usize];
        let n = numbers.within(0, lists.data.len() as u64 + 1) as u32;
        match numbers.within(0, 4) {
            0 => r.start = n,
            1 => r.end = n,
            2 => r.from = n,
            3 => r.to = n,
            _ => r.end = u32::MAX,
        }
    }
    let due = records_fault(&records, lists.data.len(), new.len());
    let result = if (fault, due) == (0, 0) { oracle::write_replaced(&content, &records, &new) } else { Default::default() };
    let expected = Expected { faults: vec![fault, due], result: result.to_lists(), lines: vec![], number: 0 };
    let entries = records.iter().flat_map(|r| [r.start, r.end, r.from, r.to]).collect();
    lend(Lent::Recording, Vector { content: lists, second: Lists { data: new, entries, text: vec![] }, ..Vector::default() }, expected, numbers)
}

fn elide(numbers: &mut Numbers, rust: fn(&str, &str, usize) -> (String, usize)) -> Vector {
    let (data, ellipsis) = (plain(numbers), if numbers.within(0, 2) == 0 { b"..".to_vec() } else { plain(numbers) });
    let width = width_about(&data, 3, numbers);
    let (fault, (result, number)) = match (std::str::from_utf8(&data), std::str::from_utf8(&ellipsis)) {
        (Ok(t), Ok(e)) => (0, rust(t, e, width)),
        _ => (7, Default::default()),
    };
    let result = Lists { data: result.into_bytes(), ..Lists::default() };
    let expected = Expected { faults: vec![fault], result, lines: vec![], number: number as u64 };
    let (content, second) = (Lists { data, ..Lists::default() }, Lists { data: ellipsis, ..Lists::default() });
    lend(Lent::Data, Vector { content, second, number: width as u64, ..Vector::default() }, expected, numbers)
}

fn complete_newline(numbers: &mut Numbers) -> Vector {
    let data = plain(numbers);
    let (fault, result) = match std::str::from_utf8(&data) {
        Ok(t) => (0, oracle::complete_newline(t)),
        Err(_) => (7, String::new()),
    };
    let result = Lists { data: result.into_bytes(), ..Lists::default() };
    let expected = Expected { faults: vec![fault], result, lines: vec![], number: 0 };
    let content = Lists { data, ..Lists::default() };
    lend(Lent::Data, Vector { content, ..Vector::default() }, expected, numbers)
}

/// The calls that add: 0 data, 1 a label, 2 a pop, 3 a raw sequence. The content is the lent buffers in full.
fn adding(numbers: &mut Numbers, kind: u64) -> Vector {
    let (lists, content_fault, content) = input(numbers, 4);
    let added = text(numbers);
    let added = if kind == 1 && numbers.within(0, 7) != 0 { String::from_utf8_lossy(&added).into_owned().into_bytes() } else { added };
    let added = if kind == 2 || kind == 3 && numbers.within(0, 9) == 0 { vec![] } else { added };
    let added = if kind == 1 { label_for(&content, added, numbers) } else { added };
    let (added_fault, result) = with_added(&lists, content_fault, &content, kind, &added).expect("the original adds the same");
    let mut expected = Expected { faults: vec![content_fault, added_fault], result, lines: vec![], number: 0 };
    let room = expected.room(numbers);
    let mut room = (room.0.max(lists.data.len()), room.1.max(lists.entries.len()), room.2.max(lists.text.len()), 0);
    // Now and then a length above its buffer, which is refused before all else.
    let part = if numbers.within(0, 19) == 0 { numbers.within(0, 2) } else { 3 };
    match part {
        0 if !lists.data.is_empty() => room.0 = lists.data.len() - 1,
        1 if !lists.entries.is_empty() => room.1 = lists.entries.len() - 1,
        2 if !lists.text.is_empty() => room.2 = lists.text.len() - 1,
        _ => {}
    }
    let above = room.0 < lists.data.len() || room.1 < lists.entries.len() || room.2 < lists.text.len();
    expected.faults.insert(0, if above { 10 } else { 0 });
    let got = expected.answer(room);
    let lent = |l: &Lists| Lists {
        data: filled(l.data.clone(), room.0, BYTE),
        entries: filled(l.entries.clone(), room.1, NUMBER),
        text: filled(l.text.clone(), room.2, BYTE),
    };
    let left = if got.refusal == 0 { &expected.result } else { &lists };
    Vector {
        content: lent(&lists),
        second: Lists { data: added, ..Lists::default() },
        used: vec![lists.data.len(), lists.entries.len(), lists.text.len()],
        answer: [got.refusal, got.data, got.entries, got.text, got.number],
        kept: [left.data.len().min(room.0), left.entries.len().min(room.1), left.text.len().min(room.2), 0],
        out: lent(left),
        ..Vector::default()
    }
}

/// A call's vectors of a part, no two alike. Each refusal comes about as often as the others.
fn chosen(call: usize, part: &Part, numbers: &mut Numbers) -> Vec<Vector> {
    let refused = if call < TEXTS { 0 } else { part.refused };
    let (mut kept, mut lines, mut each) = (vec![], HashSet::new(), HashMap::<u64, usize>::new());
    for tries in 0.. {
        if kept.len() == part.count {
            break;
        }
        let count = |due: bool| kept.iter().filter(|v| due == (refusal(call, v) != 0)).count();
        let made = CALLS[call].1(numbers);
        let seen = each.entry(refusal(call, &made)).or_default();
        let wanted = match refusal(call, &made) {
            0 => count(false) < part.count - refused,
            _ => count(true) < refused && (*seen < 5 || tries > 20_000),
        };
        let line = made.line(call, true);
        if wanted && made.fits() && line.len() <= part.longest && (!part.pictures || made.shows_pictures(call)) && lines.insert(line) {
            *seen += 1;
            kept.push(made);
        }
    }
    kept
}

/// Adds the lines of a call to the list, says how many there are, and gives the vectors back.
fn listed_in(list: &mut String, call: usize, part: &Part, numbers: &mut Numbers) -> Vec<Vector> {
    let (name, made) = (CALLS[call].0, chosen(call, part, numbers));
    writeln!(list, "# {name}").unwrap();
    made.iter().for_each(|v| writeln!(list, "{}", v.line(call, true)).unwrap());
    let mut each: Vec<u64> = made.iter().map(|v| refusal(call, v)).filter(|n| *n != 0).collect();
    each.sort_unstable();
    println!("{name}: {} vectors, {} refused: {each:?}", made.len(), each.len());
    made
}

/// A vector's refusal, 0 for none: the first number of the answer but for the calls on a text, of which it is the result.
fn refusal(call: usize, made: &Vector) -> u64 {
    if call < TEXTS { 0 } else { made.answer[0] }
}

fn main() -> std::io::Result<()> {
    let (mut seed, mut folder) = (1, String::from("."));
    let mut words = std::env::args().skip(1);
    while let Some(word) = words.next() {
        match word.as_str() {
            "--seed" => seed = words.next().and_then(|n| n.parse().ok()).expect("--seed N"),
            _ => folder = word,
        }
    }
    let old = std::fs::read_to_string(format!("{folder}/stdin"))?;
    let first = &old[..old.find(MARK).expect("the line that starts the second part")];
    let mut list = format!("{first}{MARK} with seed {seed} from the Rust originals: all from here on. Change it there.\n");
    let mut spoilt = String::from("# One place of what is expected is wrong.\n");
    for call in 0..CALLS.len() {
        let mut numbers = Numbers::new(seed * 1000 + call as u64 * 2);
        let made = listed_in(&mut list, call, &OF_EACH_CALL, &mut numbers);
        let mut wrong = made[numbers.within(0, made.len() as u64 - 1) as usize].clone();
        wrong.spoil(&mut numbers);
        writeln!(spoilt, "{}", wrong.line(call, false)).unwrap();
    }
    list += &spoilt;
    list += "# ── Of texts with faces and trucks (document 02, Q-5), for the calls that measure\n";
    for call in (0..CALLS.len()).filter(|call| CALLS[*call].0 == "text_width" || takes_width(CALLS[*call].0)) {
        // Other numbers than those of the same call above.
        listed_in(&mut list, call, &WITH_PICTURES, &mut Numbers::new(seed * 1000 + 501 + call as u64 * 2).about(About::Pictures));
    }
    assert!(list.len() <= MOST_LIST, "the program reads no more");
    std::fs::write(format!("{folder}/stdout"), table(&list))?;
    std::fs::write(format!("{folder}/stdin"), list)
}

/// What the program must print: each name with its lines, all of which agree, and last those that are wrong on purpose.
fn table(list: &str) -> String {
    let names = || list.lines().filter(|line| !line.is_empty() && !line.starts_with('#')).map(|line| line.split(' ').next().unwrap());
    let row = |name: &str, count: usize| format!("{name} {count} {count}\n");
    let calls = CALLS.iter().map(|(name, _)| *name).chain(OTHERS);
    let rows: String = calls.map(|name| row(name, names().filter(|n| *n == name).count())).collect();
    rows + &row("wrong", names().filter(|n| n.starts_with('!')).count())
}
