//! Compares the library's results with the originals' on generated inputs: `compare [--seed N] [COUNT] [CALL...]`.
//! A new call is one more line of `CALLS`, or of `MANY` if it makes calls of its own number. The first difference is printed with its
//! input and ends the run.
mod cells;
mod exhaustive;
mod line_index;
mod lists;
mod tally;
mod typed;

use std::fmt::Debug;
use std::io::Result as Io;
use std::process::ExitCode;

use bench::inputs::{About, Numbers, damaged};
use bench::ours;
use bench::recordings::{Answer, Expected, Left, at_a_limit, content, fault, label_for, listed, maybe_damaged, recording, scattered, view, with_added};
use bench::room::{LIMITS, Room};
use oracle::original::{FormatRecorder, Formatter};
use oracle::{Entry, Kind, Lists, Recording};
use ruszvedok::lent::{self, Buffers, Place, Replacement, Used, View};

/// One call on one generated input.
type Call = fn(&mut Numbers) -> Result<(), String>;

/// Many calls, for the number of cases that is asked for; gives back how many were made.
type Many = fn(&mut Numbers, u64) -> Result<u64, String>;

const CALLS: &[(&str, Call)] = &[
    ("text_width", text_width),
    ("well_formed", well_formed),
    ("truncate_end_pos", truncate_end_pos),
    ("truncate_start_pos", truncate_start_pos),
    ("zero_width_len", zero_width_len),
    ("replay", replay),
    ("write_truncated_start", |n| with_second(n, oracle::write_truncated_start, lent::write_truncated_start, true)),
    ("write_truncated_end", |n| with_second(n, oracle::write_truncated_end, lent::write_truncated_end, true)),
    ("write_padded_start", |n| with_second(n, |c, f, w| (oracle::write_padded_start(c, f, w), 0), lent::write_padded_start, false)),
    ("write_padded_end", |n| with_second(n, |c, f, w| (oracle::write_padded_end(c, f, w), 0), lent::write_padded_end, false)),
    ("write_padded_centered", |n| with_second(n, |c, f, w| (oracle::write_padded_centered(c, f, w), 0), lent::write_padded_centered, false)),
    ("write_indented", write_indented),
    ("write_unindented", write_unindented),
    ("wrap_bytes", wrap_bytes),
    ("write_wrapped", write_wrapped),
    ("write_replaced", write_replaced),
    ("write_tabs_expanded", write_tabs_expanded),
    ("write_for_office", |n| for_reader(n, ours::write_for_office, lent::write_for_office)),
    ("write_for_floor", |n| for_reader(n, ours::write_for_floor, lent::write_for_floor)),
    ("write_for_floor_by_pieces", |n| for_reader(n, ours::write_for_floor_by_pieces, lent::write_for_floor)),
    ("build_line_index", line_index::build),
    ("extend_line_index", line_index::extend),
    ("line_at", line_index::line_at),
    ("place_of", line_index::place_of),
    ("elide_start", |n| elide(n, oracle::elide_start, lent::elide_start)),
    ("elide_end", |n| elide(n, oracle::elide_end, lent::elide_end)),
    ("complete_newline", complete_newline),
    ("write", |n| adding(n, 0)),
    ("push_label", |n| adding(n, 1)),
    ("pop_label", |n| adding(n, 2)),
    ("raw", |n| adding(n, 3)),
];

const MANY: &[(&str, Many)] = &[
    ("lists_of_calls", lists::lists_of_calls),
    ("write_truncated_cells", cells::random),
    ("write_tally", tally::random),
    ("typed_recorders", typed::recorders),
    ("typed_texts", typed::texts),
    ("exhaustive_text_width", |_, _| exhaustive::text_width()),
    ("exhaustive_well_formed", |_, _| exhaustive::well_formed()),
    ("exhaustive_zero_width_len", |_, _| exhaustive::zero_width_len()),
    ("exhaustive_truncate_end_pos", |_, _| exhaustive::truncate_end_pos()),
    ("exhaustive_truncate_start_pos", |_, _| exhaustive::truncate_start_pos()),
    ("exhaustive_wrap_bytes", |n, _| exhaustive::wrap_bytes(n)),
    ("exhaustive_elide_start", |n, _| exhaustive::elide(n, oracle::elide_start, lent::elide_start)),
    ("exhaustive_elide_end", |n, _| exhaustive::elide(n, oracle::elide_end, lent::elide_end)),
    ("exhaustive_complete_newline", |n, _| exhaustive::complete_newline(n)),
    ("exhaustive_replay", |n, _| exhaustive::replay(n)),
    ("exhaustive_write_truncated_start", |n, _| exhaustive::with_second(n, oracle::write_truncated_start, lent::write_truncated_start)),
    ("exhaustive_write_truncated_end", |n, _| exhaustive::with_second(n, oracle::write_truncated_end, lent::write_truncated_end)),
    ("exhaustive_write_padded_start", |n, _| exhaustive::with_second(n, |c, f, w| (oracle::write_padded_start(c, f, w), 0), lent::write_padded_start)),
    ("exhaustive_write_padded_end", |n, _| exhaustive::with_second(n, |c, f, w| (oracle::write_padded_end(c, f, w), 0), lent::write_padded_end)),
    ("exhaustive_write_padded_centered", |n, _| exhaustive::with_second(n, |c, f, w| (oracle::write_padded_centered(c, f, w), 0), lent::write_padded_centered)),
    ("exhaustive_write_indented", |n, _| exhaustive::write_indented(n)),
    ("exhaustive_write_unindented", |n, _| exhaustive::write_unindented(n)),
    ("exhaustive_write_for_office", |n, _| exhaustive::for_reader(n, ours::write_for_office, lent::write_for_office)),
    ("exhaustive_write_for_floor", |n, _| exhaustive::for_reader(n, ours::write_for_floor, lent::write_for_floor)),
    ("exhaustive_line_index_lists", |_, _| line_index::exhaustive_lists()),
    ("exhaustive_line_index_questions", |_, _| line_index::exhaustive_questions()),
    ("exhaustive_write_truncated_cells", |_, _| cells::exhaustive()),
    ("exhaustive_write_tally", |_, _| tally::exhaustive()),
    ("exhaustive_write_wrapped", |n, _| exhaustive::write_wrapped(n)),
    ("exhaustive_write_replaced", |n, _| exhaustive::write_replaced(n)),
];

fn same<A: PartialEq + Debug>(expected: A, got: A, input: &dyn Debug) -> Result<(), String> {
    if expected == got { Ok(()) } else { Err(format!("Rust {expected:?}, Rattle {got:?} on {input:x?}")) }
}

fn text_width(numbers: &mut Numbers) -> Result<(), String> {
    text_width_of(&damaged(numbers))
}

fn text_width_of(s: &[u8]) -> Result<(), String> {
    same(oracle::text_width(s) as u64, lent::text_width(s), &s)
}

fn well_formed(numbers: &mut Numbers) -> Result<(), String> {
    well_formed_of(&damaged(numbers))
}

fn well_formed_of(s: &[u8]) -> Result<(), String> {
    same(std::str::from_utf8(s).is_ok(), lent::well_formed(s), &s)
}

fn place((pos, width): (usize, usize)) -> Place {
    Place { pos, width: width as u64 }
}

/// A width about which a text may be cut: around its own, or any.
fn width_for(s: &[u8], numbers: &mut Numbers) -> usize {
    match numbers.within(0, 19) {
        0 => u32::MAX as usize,
        _ => numbers.within(0, oracle::text_width(s) as u64 + 2) as usize,
    }
}

fn truncate_end_pos(numbers: &mut Numbers) -> Result<(), String> {
    let s = damaged(numbers);
    let max = width_for(&s, numbers);
    truncate_end_pos_of(&s, max)
}

fn truncate_end_pos_of(s: &[u8], max: usize) -> Result<(), String> {
    same(place(oracle::truncate_end_pos_bytes(s, max)), lent::truncate_end_pos(s, max as u64), &(s, max))
}

fn truncate_start_pos(numbers: &mut Numbers) -> Result<(), String> {
    let s = damaged(numbers);
    let max = width_for(&s, numbers);
    truncate_start_pos_of(&s, max)
}

fn truncate_start_pos_of(s: &[u8], max: usize) -> Result<(), String> {
    same(place(oracle::truncate_start_pos_bytes(s, max)), lent::truncate_start_pos(s, max as u64), &(s, max))
}

fn zero_width_len(numbers: &mut Numbers) -> Result<(), String> {
    zero_width_len_of(&damaged(numbers))
}

fn zero_width_len_of(s: &[u8]) -> Result<(), String> {
    same(oracle::count_start_zero_width_chars_bytes(s), lent::zero_width_len(s), &s)
}

/// A content or a second recording in the library's form, its fault, and the recording that it is if it has none.
fn input(numbers: &mut Numbers, most: u64) -> (Lists, u64, Recording) {
    if numbers.within(0, 9999) == 0 {
        return read(at_a_limit(numbers), numbers);
    }
    let made = recording(numbers, most);
    read(scattered(&made, numbers), numbers)
}

fn read(mut lists: Lists, numbers: &mut Numbers) -> (Lists, u64, Recording) {
    maybe_damaged(&mut lists, numbers);
    let fault = fault(&lists);
    let recording = if fault == 0 { Recording::from_lists(&lists.data, &lists.entries, &lists.text).unwrap() } else { Recording::default() };
    (lists, fault, recording)
}

/// Lends buffers to the library's call and compares all that it leaves. A call refused for its buffers is made again with enough.
fn lend(
    numbers: &mut Numbers,
    expected: Expected,
    mut call: impl FnMut(&mut Room, &mut [u32]) -> Left,
    input: &dyn Debug,
) -> Result<(), String> {
    let (got, _) = lend_to(expected.room(numbers), &expected, &mut call, input)?;
    if got.refusal > 20 {
        lend_to(expected.enough(), &expected, &mut call, input)?;
    }
    Ok(())
}

/// One call over buffers of these lengths; gives back the answer and the buffers.
fn lend_to(
    sizes: (usize, usize, usize, usize),
    expected: &Expected,
    call: impl FnOnce(&mut Room, &mut [u32]) -> Left,
    input: &dyn Debug,
) -> Result<(Answer, Room), String> {
    let (mut room, mut lines) = (Room::of(sizes.0, sizes.1, sizes.2), vec![0xA5A5_A5A5; sizes.3]);
    let got = Answer::from(call(&mut room, &mut lines));
    REFUSED.with(|n| n.set(n.get() + (got.refusal != 0) as u64));
    expected.check(got, &room, &lines).map_err(|e| format!("{e} on {input:x?}, buffers of {sizes:?}"))?;
    Ok((got, room))
}

thread_local! {
    /// How many calls were refused, rightly.
    static REFUSED: std::cell::Cell<u64> = const { std::cell::Cell::new(0) };
}

fn replay(numbers: &mut Numbers) -> Result<(), String> {
    let (lists, fault, content) = input(numbers, 8);
    let result = oracle::replay(&content).to_lists();
    let expected = Expected { faults: vec![fault], result, lines: vec![], number: 0 };
    lend(numbers, expected, |room, _| lent::replay(view(&lists), room.lent()), &lists)
}

/// A truncating or a padding call. `any`: also at the largest width.
fn with_second(
    numbers: &mut Numbers,
    rust: fn(&Recording, &Recording, usize) -> (Recording, usize),
    rattle: fn(View, View, u32, Buffers) -> Left,
    any: bool,
) -> Result<(), String> {
    let (lists, fault, content) = input(numbers, 8);
    let (second_lists, second_fault, second) = input(numbers, 4);
    let width = match numbers.within(0, 3999) {
        0..40 if any => u32::MAX as usize,
        // Results about the limit of data.
        0 if second.data.len() == 1 => LIMITS.0 - lists.data.len() + oracle::text_width(&lists.data) + numbers.within(0, 2) as usize - 1,
        _ => numbers.within(0, oracle::text_width(&lists.data) as u64 + 6) as usize,
    };
    // Padding to the largest width passes the limit, or writes an empty fill four thousand million times, which is as twice.
    let huge = !any && numbers.within(0, 399) == 0;
    let rust_width = if huge { oracle::text_width(&lists.data) + 2 } else { width };
    let width = if huge { u32::MAX as usize } else { width };
    let over = if huge && !second.data.is_empty() { 9 } else { 0 };
    let (result, number) = if (fault, second_fault) == (0, 0) { rust(&content, &second, rust_width) } else { Default::default() };
    let expected = Expected { faults: vec![fault, second_fault, over], result: result.to_lists(), lines: vec![], number: number as u64 };
    let call = |room: &mut Room, _: &mut [u32]| rattle(view(&lists), view(&second_lists), width as u32, room.lent());
    lend(numbers, expected, call, &(&lists, &second_lists, width))
}

fn write_indented(numbers: &mut Numbers) -> Result<(), String> {
    let (mut lists, mut fault, mut content) = input(numbers, 8);
    let (second_lists, second_fault, second) = input(numbers, 4);
    if numbers.within(0, 2999) == 0 {
        // Results about the limit of entries, and with raw sequences in the prefix of text.
        let lines = numbers.within(800, 5000) as usize;
        content = Recording::plain(&b"a\n".repeat(lines));
        (lists, fault) = (content.to_lists(), 0);
    }
    let result = if (fault, second_fault) == (0, 0) { oracle::write_indented(&content, &second) } else { Default::default() };
    let expected = Expected { faults: vec![fault, second_fault], result: result.to_lists(), lines: vec![], number: 0 };
    lend(numbers, expected, |room, _| lent::write_indented(view(&lists), view(&second_lists), room.lent()), &(&lists, &second_lists))
}

/// Against a function of ours: the original has none. Most contents have the prefix at every line that is not empty, and entries anywhere.
fn write_unindented(numbers: &mut Numbers) -> Result<(), String> {
    let (mut prefix, mut prefix_fault, _) = input(numbers, 4);
    if numbers.within(0, 9) != 0 {
        prefix.data.iter_mut().filter(|b| **b == b'\n').for_each(|b| *b = b'>');
    }
    if numbers.within(0, 3) == 0 {
        // Short, so that lines begin with it by chance.
        let short = [&b""[..], b"a", b">>", b"\xE6", "木".as_bytes()][numbers.within(0, 4) as usize];
        (prefix, prefix_fault) = (Recording::plain(short).to_lists(), 0);
    }
    let mut made = recording(numbers, 8);
    for _ in 0..numbers.within(0, 8).min(2) {
        let indent = |line: &[u8]| if line == b"\n" { line.to_vec() } else { [&prefix.data, line].concat() };
        made.data = made.data.split_inclusive(|b| *b == b'\n').flat_map(indent).collect();
    }
    if numbers.within(0, 9) == 0 && !made.data.is_empty() {
        let at = numbers.within(0, made.data.len() as u64 - 1) as usize;
        made.data[at] = [b'\n', b'a', 0xE6][numbers.within(0, 2) as usize];
    }
    let mut places: Vec<_> = made.entries.iter().map(|_| numbers.within(0, made.data.len() as u64) as usize).collect();
    places.sort_unstable();
    made.entries.iter_mut().zip(places).for_each(|(entry, at)| entry.at = at);
    let mut lists = scattered(&made, numbers);
    match numbers.within(0, 2999) {
        0 => lists = at_a_limit(numbers),
        // A result over the limit of text, as the parts overlap, or just within.
        1 => {
            let half = LIMITS.2 as u32 / 2 + numbers.within(0, 1) as u32;
            lists = Lists { data: made.data, entries: [0, 2, 0, half].repeat(2), text: vec![0x1B; half as usize] };
        }
        _ => maybe_damaged(&mut lists, numbers),
    }
    let content_fault = fault(&lists);
    write_unindented_of((&lists, content_fault), (&prefix, prefix_fault), numbers)
}

fn write_unindented_of((lists, content_fault): (&Lists, u64), (prefix, prefix_fault): (&Lists, u64), numbers: &mut Numbers) -> Result<(), String> {
    let mut out = FormatRecorder::new(false);
    let mut own = 0;
    if (content_fault, prefix_fault) == (0, 0) {
        let content = Recording::from_lists(&lists.data, &lists.entries, &lists.text).unwrap();
        own = ours::write_unindented(&mut out, &content.to_recorder(), &prefix.data).unwrap();
    }
    let faults = vec![content_fault, prefix_fault, own];
    let expected = Expected { faults, result: Recording::from_recorder(&out).to_lists(), lines: vec![], number: 0 };
    lend(numbers, expected, |room, _| lent::write_unindented(view(lists), view(prefix), room.lent()), &(lists, prefix))
}

fn wrap_width(data: &[u8], numbers: &mut Numbers) -> usize {
    match numbers.within(0, 39) {
        0 => u32::MAX as usize,
        1..20 => numbers.within(0, 6) as usize,
        _ => numbers.within(0, oracle::text_width(data) as u64 + 2) as usize,
    }
}

fn wrap_bytes(numbers: &mut Numbers) -> Result<(), String> {
    let data = content(numbers);
    let (width, break_words) = (wrap_width(&data, numbers), numbers.within(0, 1) == 0);
    wrap_bytes_of(&data, width, break_words, numbers)
}

fn wrap_bytes_of(data: &[u8], width: usize, break_words: bool, numbers: &mut Numbers) -> Result<(), String> {
    let (number, lines) = listed(data, width, break_words);
    let expected = Expected { faults: vec![], result: Lists::default(), lines, number };
    lend(numbers, expected, |_, lines| lent::wrap_bytes(data, width as u32, break_words, lines), &(data, width, break_words))
}

fn write_wrapped(numbers: &mut Numbers) -> Result<(), String> {
    let (lists, fault, content) = input(numbers, 8);
    let (width, break_words) = (wrap_width(&lists.data, numbers), numbers.within(0, 1) == 0);
    write_wrapped_of((&lists, fault, &content), width, break_words, numbers)
}

/// The content as its lists, its fault and its recording.
fn write_wrapped_of((lists, fault, content): (&Lists, u64, &Recording), width: usize, break_words: bool, numbers: &mut Numbers) -> Result<(), String> {
    let (number, lines) = listed(&content.data, width, break_words);
    let result = oracle::write_wrapped(content, width, break_words).to_lists();
    let expected = Expected { faults: vec![fault], result, lines, number };
    let call = |room: &mut Room, lines: &mut [u32]| lent::write_wrapped(view(lists), width as u32, break_words, room.lent(), lines);
    lend(numbers, expected, call, &(lists, width, break_words))
}

/// Document 01's refusal 8.
fn records_fault(records: &[Replacement], data: usize, text: usize) -> u64 {
    let mut at = 0;
    for r in records {
        if r.start > r.end || r.end as usize > data || r.start < at || r.from > r.to || r.to as usize > text {
            return 8;
        }
        at = r.end;
    }
    0
}

/// Up to four replacements, now and then a wrong number in one of them.
fn records(data: usize, text: usize, numbers: &mut Numbers) -> Vec<Replacement> {
    let (count, mut at) = (numbers.within(0, 4), 0);
    let mut records = vec![];
    for _ in 0..count {
        let start = numbers.within(at, data as u64);
        let end = numbers.within(start, (start + 5).min(data as u64));
        let from = numbers.within(0, text as u64);
        let to = numbers.within(from, text as u64);
        at = end;
        records.push(Replacement { start: start as u32, end: end as u32, from: from as u32, to: to as u32 });
    }
    if count > 0 && numbers.within(0, 11) == 0 {
        let r = &mut records[numbers.within(0, count - 1) as usize];
        let n = numbers.within(0, data as u64 + 1) as u32;
        match numbers.within(0, 4) {
            0 => r.start = n,
            1 => r.end = n,
            2 => r.from = n,
            3 => r.to = n,
            _ => r.end = u32::MAX,
        }
    }
    records
}

fn write_replaced(numbers: &mut Numbers) -> Result<(), String> {
    let (lists, fault, content) = input(numbers, 8);
    let text = damaged(numbers);
    let records = records(lists.data.len(), text.len(), numbers);
    write_replaced_of((&lists, fault, &content), &records, &text, numbers)
}

fn write_replaced_of((lists, fault, content): (&Lists, u64, &Recording), records: &[Replacement], text: &[u8], numbers: &mut Numbers) -> Result<(), String> {
    let due = records_fault(records, lists.data.len(), text.len());
    let theirs: Vec<_> = records.iter().map(|r| oracle::Replacement { start: r.start, end: r.end, from: r.from, to: r.to }).collect();
    let result = if (fault, due) == (0, 0) { oracle::write_replaced(content, &theirs, text) } else { Default::default() };
    let expected = Expected { faults: vec![fault, due], result: result.to_lists(), lines: vec![], number: 0 };
    lend(numbers, expected, |room, _| lent::write_replaced(view(lists), records, text, room.lent()), &(lists, records, text))
}

/// Against a function of ours: the original has none. One byte in four is made a tab.
fn write_tabs_expanded(numbers: &mut Numbers) -> Result<(), String> {
    let (mut lists, _, _) = input(numbers, 8);
    lists.data.iter_mut().filter(|_| numbers.within(0, 3) == 0).for_each(|b| *b = b'\t');
    let mut stop = match numbers.within(0, 19) {
        0 => [0, 65, u32::MAX][numbers.within(0, 2) as usize],
        1..12 => numbers.within(1, 9) as u32,
        _ => numbers.within(1, 64) as u32,
    };
    if numbers.within(0, 2999) == 0 {
        // Results about the limit of data.
        stop = 64;
        let tabs = LIMITS.0 / 64 - 1;
        lists = Recording::plain(&[vec![b'\t'; tabs], vec![b'a'; numbers.within(63, 65) as usize]].concat()).to_lists();
    }
    let faults = vec![fault(&lists), if (1..=64).contains(&stop) { 0 } else { 31 }];
    let mut out = FormatRecorder::new(false);
    if faults == [0, 0] {
        let content = Recording::from_lists(&lists.data, &lists.entries, &lists.text).unwrap();
        ours::write_tabs_expanded(&mut out, &content.to_recorder(), stop as usize).unwrap();
    }
    let expected = Expected { faults, result: Recording::from_recorder(&out).to_lists(), lines: vec![], number: 0 };
    lend(numbers, expected, |room, _| lent::write_tabs_expanded(view(&lists), stop, room.lent()), &(&lists, stop))
}

/// A reader's call as ours has it, and as the library has it.
type OursForReader = fn(&mut dyn Formatter, &FormatRecorder, &[u8]) -> Io<u64>;
type ForReader = fn(View, &[u8], Buffers) -> Left;

/// Against a function of ours: the original has none. Half of the labels are the one that hides; most recordings are balanced.
fn for_reader(numbers: &mut Numbers, rust: OursForReader, rattle: ForReader) -> Result<(), String> {
    let label = match numbers.within(0, 19) {
        0 => &b""[..],
        1 => [&b"\xFF"[..], b"x\xE6\x9C", b"\x80"][numbers.within(0, 2) as usize],
        _ => [&b"node"[..], b"a", b"working_copy", "ä木".as_bytes(), b"nodes"][numbers.within(0, 4) as usize],
    };
    let mut made = recording(numbers, 12);
    if numbers.within(0, 9) != 0 {
        let mut open = 0;
        made.entries.retain(|entry| {
            let stays = entry.kind != Kind::Pop || open > 0;
            open += (entry.kind == Kind::Push) as u32;
            open -= (stays && entry.kind == Kind::Pop) as u32;
            stays
        });
        made.entries.extend((0..open).map(|_| Entry { at: made.data.len(), kind: Kind::Pop, text: vec![] }));
    }
    if std::str::from_utf8(label).is_ok() {
        let pushes = made.entries.iter_mut().filter(|entry| entry.kind == Kind::Push);
        pushes.filter(|_| numbers.within(0, 1) == 0).for_each(|entry| entry.text = label.to_vec());
    }
    let mut lists = scattered(&made, numbers);
    match numbers.within(0, 2999) {
        0 => lists = at_a_limit(numbers),
        // Raw sequences over the limit of text together, as the parts overlap; one of them, or both, under the label.
        1 => {
            let (half, len) = (LIMITS.2 as u32 / 2 + numbers.within(0, 1) as u32, label.len() as u32);
            let under = [0, 0, 0, len, 0, 2, 0, half, 0, 1, 0, 0];
            let other = if numbers.within(0, 1) == 0 { under.to_vec() } else { vec![0, 2, 0, half] };
            lists = Lists { data: made.data, entries: [&under[..], &other].concat(), text: [label, &vec![0x1B; half as usize]].concat() };
        }
        _ => maybe_damaged(&mut lists, numbers),
    }
    let content_fault = fault(&lists);
    for_reader_of((&lists, content_fault), label, rust, rattle, numbers)
}

fn for_reader_of((lists, content_fault): (&Lists, u64), label: &[u8], rust: OursForReader, rattle: ForReader, numbers: &mut Numbers) -> Result<(), String> {
    let (mut out, mut own) = (FormatRecorder::new(false), 0);
    if content_fault == 0 {
        let content = Recording::from_lists(&lists.data, &lists.entries, &lists.text).unwrap();
        own = rust(&mut out, &content.to_recorder(), label).unwrap();
    }
    let expected = Expected { faults: vec![content_fault, own], result: Recording::from_recorder(&out).to_lists(), lines: vec![], number: 0 };
    lend(numbers, expected, |room, _| rattle(view(lists), label, room.lent()), &(lists, label))
}

/// A text that is well-formed, mostly.
fn plain(numbers: &mut Numbers) -> Vec<u8> {
    let made = if numbers.within(0, 1) == 0 { damaged(numbers) } else { content(numbers) };
    if numbers.within(0, 9) == 0 { made } else { String::from_utf8_lossy(&made).into_owned().into_bytes() }
}

fn elide(
    numbers: &mut Numbers,
    rust: fn(&str, &str, usize) -> (String, usize),
    rattle: fn(&[u8], &[u8], u32, &mut [u8]) -> Left,
) -> Result<(), String> {
    let (text, ellipsis) = (plain(numbers), if numbers.within(0, 2) == 0 { b"..".to_vec() } else { plain(numbers) });
    let width = match numbers.within(0, 39) {
        0 => u32::MAX as usize,
        _ => numbers.within(0, oracle::text_width(&text) as u64 + 3) as usize,
    };
    elide_of(&text, &ellipsis, width, rust, rattle, numbers)
}

fn elide_of(
    text: &[u8],
    ellipsis: &[u8],
    width: usize,
    rust: fn(&str, &str, usize) -> (String, usize),
    rattle: fn(&[u8], &[u8], u32, &mut [u8]) -> Left,
    numbers: &mut Numbers,
) -> Result<(), String> {
    let (fault, (result, number)) = match (std::str::from_utf8(text), std::str::from_utf8(ellipsis)) {
        (Ok(t), Ok(e)) => (0, rust(t, e, width)),
        _ => (7, Default::default()),
    };
    let result = Lists { data: result.into_bytes(), ..Lists::default() };
    let expected = Expected { faults: vec![fault], result, lines: vec![], number: number as u64 };
    lend(numbers, expected, |room, _| rattle(text, ellipsis, width as u32, &mut room.data), &(text, ellipsis, width))
}

fn complete_newline(numbers: &mut Numbers) -> Result<(), String> {
    complete_newline_of(&plain(numbers), numbers)
}

fn complete_newline_of(text: &[u8], numbers: &mut Numbers) -> Result<(), String> {
    let (fault, result) = match std::str::from_utf8(text) {
        Ok(t) => (0, oracle::complete_newline(t)),
        Err(_) => (7, String::new()),
    };
    let result = Lists { data: result.into_bytes(), ..Lists::default() };
    let expected = Expected { faults: vec![fault], result, lines: vec![], number: 0 };
    lend(numbers, expected, |room, _| lent::complete_newline(text, &mut room.data), &text)
}

/// The calls that add: 0 data, 1 a label, 2 a pop, 3 a raw sequence. What they leave must also be, read back, what the original has.
fn adding(numbers: &mut Numbers, kind: u64) -> Result<(), String> {
    let (lists, fault, content) = input(numbers, 8);
    let added = damaged(numbers);
    let added = if kind == 1 && numbers.within(0, 7) != 0 { String::from_utf8_lossy(&added).into_owned().into_bytes() } else { added };
    let added = if kind == 1 { label_for(&content, added, numbers) } else { added };
    let (added_fault, result) = with_added(&lists, fault, &content, kind, &added)?;
    let expected = Expected { faults: vec![fault, added_fault], result, lines: vec![], number: 0 };
    let sizes = expected.room(numbers);
    let sizes = (sizes.0.max(lists.data.len()), sizes.1.max(lists.entries.len()), sizes.2.max(lists.text.len()));
    let used = Used { data: lists.data.len(), entries: lists.entries.len(), text: lists.text.len() };
    let mut room = Room::of(sizes.0, sizes.1, sizes.2);
    room.data[..used.data].copy_from_slice(&lists.data);
    room.entries[..used.entries].copy_from_slice(&lists.entries);
    room.text[..used.text].copy_from_slice(&lists.text);
    let before = room.clone();
    let got = Answer::from(match kind {
        0 => lent::write(room.lent(), used, &added),
        1 => lent::push_label(room.lent(), used, &added),
        2 => lent::pop_label(room.lent(), used),
        _ => lent::raw(room.lent(), used, &added),
    });
    REFUSED.with(|n| n.set(n.get() + (got.refusal != 0) as u64));
    if got.refusal != 0 {
        same((&before.data, &before.entries, &before.text), (&room.data, &room.entries, &room.text), &(&lists, &added))?;
        return same(expected.answer((sizes.0, sizes.1, sizes.2, 0)), got, &(&lists, &added));
    }
    expected.check(got, &room, &[]).map_err(|e| format!("{e} on {lists:x?}, {added:x?}"))
}

fn main() -> ExitCode {
    let (mut seed, mut count, mut names) = (1, 200_000u64, vec![]);
    let mut words = std::env::args().skip(1);
    while let Some(word) = words.next() {
        match word.as_str() {
            "--seed" => seed = words.next().and_then(|n| n.parse().ok()).expect("--seed N"),
            _ => match word.parse() {
                Ok(n) => count = n,
                Err(_) => names.push(word),
            },
        }
    }
    let known: Vec<_> = CALLS.iter().map(|(name, _)| *name).chain(MANY.iter().map(|(name, _)| *name)).collect();
    if let Some(name) = names.iter().find(|name| !known.contains(&name.as_str())) {
        eprintln!("compare: no call {name}");
        return ExitCode::from(2);
    }
    let asked = |name: &str| names.is_empty() || names.iter().any(|n| n == name);
    let each = |call: Call| move |numbers: &mut Numbers| (0..count).try_for_each(|case| call(numbers).map_err(|e| format!("case {case}: {e}"))).map(|()| count);
    for (name, call) in CALLS.iter().filter(|(name, _)| asked(name)) {
        if !agrees(name, seed, each(*call)) {
            return ExitCode::FAILURE;
        }
    }
    for (name, call) in MANY.iter().filter(|(name, _)| asked(name)) {
        if !agrees(name, seed, |numbers| call(numbers, count)) {
            return ExitCode::FAILURE;
        }
    }
    ExitCode::SUCCESS
}

/// Makes the calls of one name, half of their texts about pictures, and prints how many agree, or the first difference.
fn agrees(name: &str, seed: u64, calls: impl FnOnce(&mut Numbers) -> Result<u64, String>) -> bool {
    REFUSED.with(|n| n.set(0));
    match calls(&mut Numbers::new(seed).about(About::Both)) {
        Ok(made) => println!("{name}: {made} calls agree, {} of them refused", REFUSED.with(|n| n.get())),
        Err(difference) => {
            eprintln!("compare: {name}, seed {seed}: {difference}");
            return false;
        }
    }
    true
}
