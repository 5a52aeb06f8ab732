//! The calls on ALL short inputs: every string over the bytes that matter, every width up to 5, both breakings, and entries of every
//! kind at every position. Each function gives back how many calls it made.
use std::ops::RangeInclusive;

use bench::inputs::Numbers;
use bench::recordings::{Expected, Left, view};
use oracle::{Entry, Kind, Lists, Recording};
use ruszvedok::lent::{self, Buffers, Replacement, View};

use crate::{ForReader, OursForReader, complete_newline_of, elide_of, for_reader_of, lend, wrap_bytes_of, write_replaced_of, write_unindented_of, write_wrapped_of};

/// Space, newline, a letter; a character of three bytes and width 2, one of two bytes and width 0, the lead of one of four; and so
/// every broken form of these.
const BYTES: [u8; 9] = [0x20, 0x0A, 0x61, 0xE6, 0x9C, 0xA8, 0xCC, 0x81, 0xF0];
/// For well-formed texts: of each width and of one to four bytes.
const CHARACTERS: [&str; 6] = [" ", "\n", "a", "木", "\u{301}", "\u{1F300}"];
const WIDTHS: RangeInclusive<usize> = 0..=5;

type Checked = Result<u64, String>;

/// Every row of at most `most` of the symbols, the shorter ones first.
fn rows<T: Copy>(symbols: &[T], most: u32) -> impl Iterator<Item = Vec<T>> {
    let count = symbols.len();
    let row = move |len: u32, n: usize| (0..len).map(|k| symbols[n / count.pow(k) % count]).collect();
    (0..=most).flat_map(move |len| (0..count.pow(len)).map(move |n| row(len, n)))
}

/// Every number below 2^21 in the form of UTF-8, whether it is a character's or not.
fn sequences() -> impl Iterator<Item = Vec<u8>> {
    (0..1 << 21).map(|n: u32| {
        let tail = |k: u32| 0x80 | (n >> (6 * k) & 0x3F) as u8;
        match n {
            0..0x80 => vec![n as u8],
            0x80..0x800 => vec![0xC0 | (n >> 6) as u8, tail(0)],
            0x800..0x10000 => vec![0xE0 | (n >> 12) as u8, tail(1), tail(0)],
            _ => vec![0xF0 | (n >> 18) as u8, tail(2), tail(1), tail(0)],
        }
    })
}

/// Every well-formed text of up to five of the characters.
fn characters() -> impl Iterator<Item = Vec<u8>> {
    rows(&CHARACTERS, 5).map(|row| row.concat().into_bytes())
}

fn texts(check: impl Fn(&[u8]) -> Checked) -> Checked {
    rows(&BYTES, 5).chain(sequences()).try_fold(0, |made, s| Ok(made + check(&s)?))
}

pub fn text_width() -> Checked {
    texts(|s| crate::text_width_of(s).map(|()| 1))
}

pub fn well_formed() -> Checked {
    texts(|s| crate::well_formed_of(s).map(|()| 1))
}

pub fn zero_width_len() -> Checked {
    texts(|s| crate::zero_width_len_of(s).map(|()| 1))
}

pub fn truncate_end_pos() -> Checked {
    texts(|s| WIDTHS.into_iter().try_fold(0, |made, max| crate::truncate_end_pos_of(s, max).map(|()| made + 1)))
}

pub fn truncate_start_pos() -> Checked {
    texts(|s| WIDTHS.into_iter().try_fold(0, |made, max| crate::truncate_start_pos_of(s, max).map(|()| made + 1)))
}

/// Both breakings at every width.
fn wrappings() -> impl Iterator<Item = (usize, bool)> {
    WIDTHS.flat_map(|width| [(width, false), (width, true)])
}

pub fn wrap_bytes(numbers: &mut Numbers) -> Checked {
    let mut made = 0;
    for s in rows(&BYTES, 5).chain(characters()) {
        for (width, break_words) in wrappings() {
            wrap_bytes_of(&s, width, break_words, numbers)?;
            made += 1;
        }
    }
    Ok(made)
}

/// Well-formed texts of up to five characters, and any bytes up to four.
fn plain_texts() -> impl Iterator<Item = Vec<u8>> {
    characters().chain(rows(&BYTES, 4))
}

pub fn elide(
    numbers: &mut Numbers,
    rust: fn(&str, &str, usize) -> (String, usize),
    rattle: fn(&[u8], &[u8], u32, &mut [u8]) -> Left,
) -> Checked {
    let mut made = 0;
    for text in plain_texts() {
        for ellipsis in ["", "..", "\u{301}木\u{301}", "...."] {
            for width in WIDTHS {
                elide_of(&text, ellipsis.as_bytes(), width, rust, rattle, numbers)?;
                made += 1;
            }
        }
    }
    Ok(made)
}

pub fn complete_newline(numbers: &mut Numbers) -> Checked {
    plain_texts().try_fold(0, |made, text| complete_newline_of(&text, numbers).map(|()| made + 1))
}

/// The same without entries.
fn plain_contents() -> impl Iterator<Item = Recording> {
    plain_texts().map(|data| Recording { data, entries: vec![] })
}

/// Every string of up to three bytes with one or two entries of every kind at every position, balanced or not.
fn labelled_contents() -> impl Iterator<Item = Recording> {
    labelled(rows(&BYTES, 3))
}

fn labelled(texts: impl Iterator<Item = Vec<u8>>) -> impl Iterator<Item = Recording> {
    texts.flat_map(|data| {
        let places: Vec<_> = (0..=data.len()).flat_map(|at| [Kind::Push, Kind::Pop, Kind::Raw].map(|kind| (at, kind))).collect();
        let falls = |row: &Vec<(usize, Kind)>| row.windows(2).any(|pair| pair[0].0 > pair[1].0);
        let lists: Vec<_> = rows(&places, 2).filter(|row| !row.is_empty() && !falls(row)).collect();
        lists.into_iter().map(move |row| Recording { data: data.clone(), entries: row.into_iter().map(entry).collect() })
    })
}

fn entry((at, kind): (usize, Kind)) -> Entry {
    let text = match kind {
        Kind::Push => "木x".into(),
        Kind::Pop => vec![],
        Kind::Raw => vec![0x1B, 0xFF],
    };
    Entry { at, kind, text }
}

/// Two characters with an entry before, between and behind them.
fn labelled_second() -> Recording {
    let entries = [(0, Kind::Push), (1, Kind::Raw), (4, Kind::Pop)].map(entry).to_vec();
    Recording { data: ".木".into(), entries }
}

/// Each content without entries with each of three second recordings, each content with entries with the labelled one.
fn pairs() -> impl Iterator<Item = (Recording, Recording)> {
    let seconds = || [Recording::default(), Recording::plain("\u{301}木".as_bytes()), labelled_second()];
    let plain = plain_contents().flat_map(move |content| seconds().map(|second| (content.clone(), second)));
    plain.chain(labelled_contents().map(|content| (content, labelled_second())))
}

fn expected(result: Recording, number: usize) -> Expected {
    Expected { faults: vec![], result: result.to_lists(), lines: vec![], number: number as u64 }
}

pub fn replay(numbers: &mut Numbers) -> Checked {
    let mut made = 0;
    for content in plain_contents().chain(labelled_contents()) {
        let lists = content.to_lists();
        lend(numbers, expected(oracle::replay(&content), 0), |room, _| lent::replay(view(&lists), room.lent()), &lists)?;
        made += 1;
    }
    Ok(made)
}

pub fn with_second(
    numbers: &mut Numbers,
    rust: fn(&Recording, &Recording, usize) -> (Recording, usize),
    rattle: fn(View, View, u32, Buffers) -> Left,
) -> Checked {
    let mut made = 0;
    for (content, second) in pairs() {
        let (lists, second_lists) = (content.to_lists(), second.to_lists());
        for width in WIDTHS {
            let (result, number) = rust(&content, &second, width);
            let call = |room: &mut bench::room::Room, _: &mut [u32]| rattle(view(&lists), view(&second_lists), width as u32, room.lent());
            lend(numbers, expected(result, number), call, &(&lists, &second_lists, width))?;
            made += 1;
        }
    }
    Ok(made)
}

pub fn write_indented(numbers: &mut Numbers) -> Checked {
    let mut made = 0;
    for (content, prefix) in pairs() {
        let (lists, prefix_lists) = (content.to_lists(), prefix.to_lists());
        let result = oracle::write_indented(&content, &prefix);
        let call = |room: &mut bench::room::Room, _: &mut [u32]| lent::write_indented(view(&lists), view(&prefix_lists), room.lent());
        lend(numbers, expected(result, 0), call, &(&lists, &prefix_lists))?;
        made += 1;
    }
    Ok(made)
}

/// Every prefix of up to two of three bytes, on every string of up to seven of them, and of up to four with entries.
pub fn write_unindented(numbers: &mut Numbers) -> Checked {
    const THREE: [u8; 3] = *b"\nab";
    let plain = rows(&THREE, 7).map(|data| Recording { data, entries: vec![] });
    let mut made = 0;
    for content in plain.chain(labelled(rows(&THREE, 4))) {
        for prefix in rows(&THREE, 2) {
            write_unindented_of((&content.to_lists(), 0), (&Recording::plain(&prefix).to_lists(), 0), numbers)?;
            made += 1;
        }
    }
    Ok(made)
}

/// Every string of up to four bytes with the label over every stretch of it, and of up to three with a raw sequence or a label more, in
/// every order at every place; some are unbalanced.
pub fn for_reader(numbers: &mut Numbers, rust: OursForReader, rattle: ForReader) -> Checked {
    const SHAPES: [&str; 9] = ["xp", "xrp", "rxp", "xpr", "xxpp", "xypp", "yxpp", "px", "xxp"];
    let mut made = 0;
    for shape in SHAPES {
        for data in rows(&BYTES, if shape.len() == 2 { 4 } else { 3 }) {
            let places: Vec<usize> = (0..=data.len()).collect();
            let placed = |places: &Vec<usize>| places.len() == shape.len() && places.is_sorted();
            for places in rows(&places, shape.len() as u32).filter(placed) {
                let entry = |(at, kind): (usize, u8)| match kind {
                    b'p' => Entry { at, kind: Kind::Pop, text: vec![] },
                    b'r' => Entry { at, kind: Kind::Raw, text: vec![0x1B, 0xFF] },
                    label => Entry { at, kind: Kind::Push, text: vec![label] },
                };
                let content = Recording { data: data.clone(), entries: places.into_iter().zip(shape.bytes()).map(entry).collect() };
                for_reader_of((&content.to_lists(), 0), b"x", rust, rattle, numbers)?;
                made += 1;
            }
        }
    }
    Ok(made)
}

pub fn write_wrapped(numbers: &mut Numbers) -> Checked {
    let mut made = 0;
    for content in plain_contents().chain(labelled_contents()) {
        let lists = content.to_lists();
        for (width, break_words) in wrappings() {
            write_wrapped_of((&lists, 0, &content), width, break_words, numbers)?;
            made += 1;
        }
    }
    Ok(made)
}

/// Two records of every four positions, in order or not, one of them beyond the data.
pub fn write_replaced(numbers: &mut Numbers) -> Checked {
    let replaced = |lists: &Lists, content: &Recording, numbers: &mut Numbers| {
        let ends: Vec<u32> = (0..=content.data.len() as u32 + 1).collect();
        let mut made = 0;
        for ends in rows(&ends, 4).filter(|row| row.len() % 2 == 0) {
            let record = |(i, pair): (usize, &[u32])| Replacement { start: pair[0], end: pair[1], from: i as u32, to: 2 * i as u32 + 1 };
            let records: Vec<_> = ends.chunks_exact(2).enumerate().map(record).collect();
            write_replaced_of((lists, 0, content), &records, b"X\nZ", numbers)?;
            made += 1;
        }
        Ok::<u64, String>(made)
    };
    let contents = rows(&BYTES, 3).map(|data| Recording { data, entries: vec![] });
    let labelled = labelled_contents().filter(|content| content.data.len() <= 2);
    contents.chain(labelled).try_fold(0, |made, content| Ok(made + replaced(&content.to_lists(), &content, numbers)?))
}
