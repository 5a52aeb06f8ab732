//! The calls that are timed. A new one is one more line of `CASES`: its name and a function from an input to the two sides. Those of the line
//! index are `LINE_INDEX_CASES`, those of a page of cells `CELLS_CASES`, those of a tally sheet `TALLY_CASES`.
use std::cell::RefCell;
use std::hint::black_box;
use std::io::{Result as Io, Write as _};
use std::rc::Rc;

use bstr::ByteSlice as _;
use bench::inputs::{Input, LONG_CELLS, LONG_ROWS, MANY_COLUMNS, Numbers, PAGES_OF_8, PAGES_OF_64, ROWS, SHEETS, SHORT_ROWS, SIZES, Size, TABBED};
use bench::ours::{self, ByByte, ByMemchr, Newlines};
use bench::recordings::{self, Answer, Left, view};
use bench::room::Room;
use bench::timing::Pair;
use oracle::original::{FormatRecorder, Formatter};
use oracle::{Entry, Kind, Lists, Recording, original};
use ruszvedok::Refusal;
use ruszvedok::lent::{self, Buffers, CELL_NUMBERS, LINE_NUMBERS, Place, Replacement, Used, View};

pub struct Case {
    pub name: &'static str,
    pub sizes: &'static [Size],
    pub sides: fn(&Input) -> Result<Pair, String>,
}

pub const CASES: &[Case] = &[
    Case { name: "text_width", sizes: &SIZES, sides: text_width },
    Case { name: "truncate_end_pos", sizes: &SIZES, sides: truncate_end_pos },
    Case { name: "truncate_start_pos", sizes: &SIZES, sides: truncate_start_pos },
    Case { name: "text_width_and_truncate_start_pos", sizes: &SIZES, sides: text_width_and_truncate_start_pos },
    Case { name: "well_formed", sizes: &SIZES, sides: well_formed },
    Case { name: "replay", sizes: &ROWS, sides: replay },
    Case { name: "copy", sizes: &ROWS, sides: copy },
    Case { name: "write_truncated_start", sizes: &ROWS, sides: write_truncated_start },
    Case { name: "write_truncated_end", sizes: &ROWS, sides: write_truncated_end },
    Case { name: "write_padded_start", sizes: &ROWS, sides: write_padded_start },
    Case { name: "write_padded_end", sizes: &ROWS, sides: write_padded_end },
    Case { name: "write_padded_centered", sizes: &ROWS, sides: write_padded_centered },
    Case { name: "write_indented", sizes: &ROWS, sides: write_indented },
    Case { name: "write_unindented", sizes: &ROWS, sides: |input| write_unindented(input, b"> ", LINE, FEW) },
    Case { name: "write_unindented_prefix_4", sizes: &ROWS, sides: |input| write_unindented(input, b"    ", LINE, FEW) },
    Case { name: "write_unindented_prefix_40", sizes: &ROWS, sides: |input| write_unindented(input, &[b' '; 40], LINE, FEW) },
    Case { name: "write_unindented_short_lines", sizes: &ROWS, sides: |input| write_unindented(input, b"> ", 10, FEW) },
    Case { name: "write_unindented_long_lines", sizes: &ROWS, sides: |input| write_unindented(input, b"> ", 4000, FEW) },
    Case { name: "write_unindented_many_entries", sizes: &SHORT_ROWS, sides: |input| write_unindented(input, b"> ", LINE, 16) },
    Case { name: "write_unindented_by_memchr", sizes: &ROWS, sides: |input| unindented_by_memchr(input, b"> ", LINE) },
    Case { name: "write_unindented_by_memchr_prefix_40", sizes: &ROWS, sides: |input| unindented_by_memchr(input, &[b' '; 40], LINE) },
    Case { name: "write_unindented_by_memchr_short_lines", sizes: &ROWS, sides: |input| unindented_by_memchr(input, b"> ", 10) },
    Case { name: "wrap_bytes", sizes: &ROWS, sides: wrap_bytes },
    Case { name: "write_wrapped", sizes: &ROWS, sides: write_wrapped },
    Case { name: "write_replaced", sizes: &ROWS, sides: write_replaced },
    Case { name: "write_tabs_expanded", sizes: &TABBED, sides: write_tabs_expanded },
    Case { name: "write_for_office", sizes: &ROWS, sides: write_for_office },
    Case { name: "write_for_floor", sizes: &ROWS, sides: |input| write_for_floor(ours::write_for_floor, rows_of(input, priced)) },
    Case { name: "write_for_floor_whole_page", sizes: &ROWS, sides: |input| write_for_floor(ours::write_for_floor, rows_of(input, priced_whole)) },
    Case { name: "write_for_floor_absent", sizes: &ROWS, sides: |input| write_for_floor(ours::write_for_floor, rows(input)) },
    Case { name: "write_for_floor_many_entries", sizes: &SHORT_ROWS, sides: |input| write_for_floor(ours::write_for_floor, rows_of(input, priced_often)) },
    Case { name: "write_for_floor_by_pieces", sizes: &ROWS, sides: |input| write_for_floor(ours::write_for_floor_by_pieces, rows_of(input, priced)) },
    Case { name: "write_for_floor_by_pieces_absent", sizes: &ROWS, sides: |input| write_for_floor(ours::write_for_floor_by_pieces, rows(input)) },
    Case { name: "elide_start", sizes: &ROWS, sides: elide_start },
    Case { name: "elide_end", sizes: &ROWS, sides: elide_end },
    Case { name: "complete_newline", sizes: &ROWS, sides: complete_newline },
    Case { name: "elide_start_from_bytes", sizes: &ROWS, sides: elide_start_from_bytes },
    Case { name: "elide_end_from_bytes", sizes: &ROWS, sides: elide_end_from_bytes },
    Case { name: "complete_newline_from_bytes", sizes: &ROWS, sides: complete_newline_from_bytes },
    Case { name: "typed_write_truncated_end", sizes: &ROWS, sides: typed_write_truncated_end },
    Case { name: "made_by_adding", sizes: &SHORT_ROWS, sides: made_by_adding },
    Case { name: "replay_8_labels", sizes: &PAGE, sides: |input| replay_pages(input, 8) },
    Case { name: "replay_4096_labels", sizes: &PAGE, sides: |input| replay_pages(input, PUSHES) },
    Case { name: "write_indented_8_labels", sizes: &PAGE, sides: |input| write_indented_pages(input, 8) },
    Case { name: "write_indented_4096_labels", sizes: &PAGE, sides: |input| write_indented_pages(input, PUSHES) },
    Case { name: "write_indented_labelled_prefix", sizes: &PAGE, sides: write_indented_labelled },
    Case { name: "typed_pushes_8_labels", sizes: &PAGE, sides: |input| typed_pushes(input, 8) },
    Case { name: "typed_pushes_4096_labels", sizes: &PAGE, sides: |input| typed_pushes(input, PUSHES) },
];

/// Pages with as many pushes as there may be entries (document 02, Q-8). With 16 bytes a label, 4,096 different ones fill the text.
const PAGE: [Size; 1] = [(64 << 10, "64 KiB")];
const PUSHES: usize = 4096;

/// Those of the line index, for lines of about so many bytes: each against both forms of ours, lists that surely have room or are exactly full.
macro_rules! line_index_cases {
    ($($of:literal, $sizes:expr, $line:expr;)*) => { &[$(
        Case { name: concat!("build_line_index", $of), sizes: $sizes, sides: |input| build_line_index::<ByByte>(input, $line, false) },
        Case { name: concat!("build_line_index_by_memchr", $of), sizes: $sizes, sides: |input| build_line_index::<ByMemchr>(input, $line, false) },
        Case { name: concat!("build_line_index_exact", $of), sizes: $sizes, sides: |input| build_line_index::<ByByte>(input, $line, true) },
        Case { name: concat!("build_line_index_by_memchr_exact", $of), sizes: $sizes, sides: |input| build_line_index::<ByMemchr>(input, $line, true) },
        Case { name: concat!("extend_line_index", $of), sizes: $sizes, sides: |input| extend_line_index::<ByByte>(input, $line, false) },
        Case { name: concat!("extend_line_index_by_memchr", $of), sizes: $sizes, sides: |input| extend_line_index::<ByMemchr>(input, $line, false) },
        Case { name: concat!("extend_line_index_exact", $of), sizes: $sizes, sides: |input| extend_line_index::<ByByte>(input, $line, true) },
        Case { name: concat!("extend_line_index_by_memchr_exact", $of), sizes: $sizes, sides: |input| extend_line_index::<ByMemchr>(input, $line, true) },
        Case { name: concat!("line_at", $of), sizes: $sizes, sides: |input| line_at::<ByByte>(input, $line) },
        Case { name: concat!("line_at_by_memchr", $of), sizes: $sizes, sides: |input| line_at::<ByMemchr>(input, $line) },
        Case { name: concat!("place_of", $of), sizes: $sizes, sides: |input| place_of::<ByByte>(input, $line) },
        Case { name: concat!("place_of_by_memchr", $of), sizes: $sizes, sides: |input| place_of::<ByMemchr>(input, $line) },
    )*] };
}

pub const LINE_INDEX_CASES: &[Case] = line_index_cases! {
    "", &ROWS, BOARD;
    "_lines_1000", &LONG_ROWS, 1000;
    "_lines_16000", &LONG_ROWS, 16_000;
    "_no_newline", &LONG_ROWS, NO_NEWLINE;
    "_all_newlines", &LONG_ROWS, ALL_NEWLINES;
};

/// Those of a page of so many cells, each with buffers that surely have room and with exact ones, and against a call for each cell.
macro_rules! cells_cases {
    ($($of:literal, $sizes:expr, $count:expr, $width:expr;)*) => { &[$(
        Case { name: concat!("write_truncated_cells", $of), sizes: $sizes, sides: |input| write_truncated_cells(input, $count, $width, false) },
        Case { name: concat!("write_truncated_cells_exact", $of), sizes: $sizes, sides: |input| write_truncated_cells(input, $count, $width, true) },
        Case { name: concat!("write_truncated_cells_by_calls", $of), sizes: $sizes, sides: |input| cells_by_calls(input, $count, $width) },
    )*] };
}

pub const CELLS_CASES: &[Case] = cells_cases! {
    "", &PAGES_OF_8, 8, Width::Middle;
    "_narrow", &PAGES_OF_8, 8, Width::All;
    "_cut", &PAGES_OF_8, 8, Width::Few;
    "_64", &PAGES_OF_64, 64, Width::Middle;
    "_64_narrow", &PAGES_OF_64, 64, Width::All;
    "_64_cut", &PAGES_OF_64, 64, Width::Few;
};

/// Those of a tally sheet with so many columns of a width, cells of about so many bytes; with buffers that surely have room and with exact ones.
macro_rules! tally_cases {
    ($($of:literal, $sizes:expr, $count:expr, $cell:expr, $width:expr;)*) => { &[$(
        Case { name: concat!("write_tally", $of), sizes: $sizes, sides: |input| write_tally(input, $count, $cell, $width, false) },
        Case { name: concat!("write_tally_exact", $of), sizes: $sizes, sides: |input| write_tally(input, $count, $cell, $width, true) },
    )*] };
}

pub const TALLY_CASES: &[Case] = tally_cases! {
    "", &SHEETS, 4, 8, 10;
    "_wide_columns", &SHEETS, 4, 8, 40;
    "_12_columns", &MANY_COLUMNS, 12, 8, 10;
    "_long_cells", &LONG_CELLS, 4, 200, 10;
};

fn text_width(input: &Input) -> Result<Pair, String> {
    Pair::of_values(input.texts.clone(), |s| original::text_width(s) as u64, |s| lent::text_width(s))
}

/// Each text with half of its width, so that the cut is in its middle.
fn halves(input: &Input) -> Vec<(Vec<u8>, usize)> {
    input.texts.iter().map(|s| (s.clone(), original::text_width(s) / 2)).collect()
}

fn place((pos, width): (usize, usize)) -> Place {
    Place { pos, width: width as u64 }
}

fn truncate_end_pos(input: &Input) -> Result<Pair, String> {
    Pair::of_values(
        halves(input),
        |(s, max)| place(original::truncate_end_pos_bytes(s, *max)),
        |(s, max)| lent::truncate_end_pos(s, *max as u64),
    )
}

/// Rust reads the kept half backwards; the library measures the whole and then reads the other half forwards.
fn truncate_start_pos(input: &Input) -> Result<Pair, String> {
    Pair::of_values(
        halves(input),
        |(s, max)| place(original::truncate_start_pos_bytes(s, *max)),
        |(s, max)| lent::truncate_start_pos(s, *max as u64),
    )
}

/// What `write_truncated_start` does with its content: Rust measures it too, before it reads backwards.
fn text_width_and_truncate_start_pos(input: &Input) -> Result<Pair, String> {
    Pair::of_values(
        halves(input),
        |(s, max)| {
            black_box(original::text_width(s));
            place(original::truncate_start_pos_bytes(s, *max))
        },
        |(s, max)| lent::truncate_start_pos(s, *max as u64),
    )
}

fn well_formed(input: &Input) -> Result<Pair, String> {
    Pair::of_values(input.texts.clone(), |s| std::str::from_utf8(s).is_ok(), |s| lent::well_formed(s))
}

/// A text with entries, in both forms: six entries in a short row, one for each 512 bytes of a long text.
struct Row {
    recording: Recording,
    lists: Lists,
    recorder: FormatRecorder,
    width: usize,
}

/// A line of long texts, and for how many bytes they have an entry.
const LINE: usize = 100;
const FEW: usize = 512;

fn row(text: &[u8]) -> Row {
    let count = if text.len() <= 1024 { 6 } else { text.len() / FEW / 2 * 2 };
    let mut data = text.to_vec();
    // Lines of about 100 bytes.
    (1..data.len() / LINE).for_each(|i| data[i * LINE] = b'\n');
    labelled(data, count)
}

fn labelled(data: Vec<u8>, count: usize) -> Row {
    of_recording(recordings::labelled(data, count))
}

fn of_recording(recording: Recording) -> Row {
    Row { lists: recording.to_lists(), recorder: recording.to_recorder(), width: original::text_width(&recording.data), recording }
}

fn rows(input: &Input) -> Vec<Row> {
    input.texts.iter().map(|text| row(text)).collect()
}

/// A short second recording: a label, the data, a pop.
fn second(data: &[u8]) -> (Lists, FormatRecorder) {
    let entries = vec![
        Entry { at: 0, kind: Kind::Push, text: b"rest".to_vec() },
        Entry { at: data.len(), kind: Kind::Pop, text: vec![] },
    ];
    let made = Recording { data: data.to_vec(), entries };
    (made.to_lists(), made.to_recorder())
}

fn recorded(
    input: &Input,
    rust: impl Fn(&Row, &mut FormatRecorder) -> Io<u64> + Copy + 'static,
    rattle: impl Fn(&Row, &mut Room) -> Left + Copy + 'static,
) -> Result<Pair, String> {
    recorded_rows(rows(input), rust, rattle)
}

/// Rust writes to a new recorder, the library to buffers that are lent again and again.
fn recorded_rows(
    rows: Vec<Row>,
    rust: impl Fn(&Row, &mut FormatRecorder) -> Io<u64> + Copy + 'static,
    rattle: impl Fn(&Row, &mut Room) -> Left + Copy + 'static,
) -> Result<Pair, String> {
    let made = move |row: &Row| {
        let mut out = FormatRecorder::new(false);
        let number = rust(row, &mut out).unwrap();
        (out, number)
    };
    let check = move |row: &Row| {
        let (out, number) = made(row);
        let expected = Recording::from_recorder(&out).to_lists();
        let mut room = Room::full();
        let got = Answer::from(rattle(row, &mut room));
        if got.refusal != 0 {
            return Err(format!("refused: {got:?}"));
        }
        let (d, e, t) = (got.data as usize, got.entries as usize, got.text as usize);
        let left = Lists { data: room.data[..d].to_vec(), entries: room.entries[..e].to_vec(), text: room.text[..t].to_vec() };
        if (left, got.number) == (expected, number) { Ok(()) } else { Err("other results".into()) }
    };
    let room = RefCell::new(Room::full());
    Pair::new(rows, check, made, move |row| rattle(row, &mut room.borrow_mut()))
}

fn replay(input: &Input) -> Result<Pair, String> {
    recorded(input, |row, out| row.recorder.replay(out).map(|()| 0), |row, room| lent::replay(view(&row.lists), room.lent()))
}

/// The floor of the calls that copy: a bare copy of the data on the library's side, `replay` on Rust's.
fn copy(input: &Input) -> Result<Pair, String> {
    let room = RefCell::new(Room::full());
    Pair::new(
        rows(input),
        |_| Ok(()),
        |row| {
            let mut out = FormatRecorder::new(false);
            row.recorder.replay(&mut out).unwrap();
            out
        },
        move |row| room.borrow_mut().data[..row.lists.data.len()].copy_from_slice(&row.lists.data),
    )
}

thread_local! {
    static ELLIPSIS: (Lists, FormatRecorder) = second("…..".as_bytes());
    static FILL: (Lists, FormatRecorder) = second(b" ");
    static PREFIX: (Lists, FormatRecorder) = (Recording::plain(b"> ").to_lists(), Recording::plain(b"> ").to_recorder());
}

/// To half of its width.
fn write_truncated_start(input: &Input) -> Result<Pair, String> {
    recorded(
        input,
        |row, out| ELLIPSIS.with(|e| original::write_truncated_start(out, &row.recorder, &e.1, row.width / 2)).map(|n| n as u64),
        |row, room| ELLIPSIS.with(|e| lent::write_truncated_start(view(&row.lists), view(&e.0), row.width as u32 / 2, room.lent())),
    )
}

fn write_truncated_end(input: &Input) -> Result<Pair, String> {
    recorded(
        input,
        |row, out| ELLIPSIS.with(|e| original::write_truncated_end(out, &row.recorder, &e.1, row.width / 2)).map(|n| n as u64),
        |row, room| ELLIPSIS.with(|e| lent::write_truncated_end(view(&row.lists), view(&e.0), row.width as u32 / 2, room.lent())),
    )
}

/// The same through the type with its own buffers, which the first call has grown.
fn typed_write_truncated_end(input: &Input) -> Result<Pair, String> {
    let typed = |lists: &Lists| ruszvedok::FormatRecorder::try_from(view(lists)).unwrap();
    let ellipsis = ELLIPSIS.with(|e| typed(&e.0));
    let parts: Vec<_> = rows(input).into_iter().map(|row| (typed(&row.lists), row)).collect();
    let rust = |row: &Row| {
        let mut out = FormatRecorder::new(false);
        ELLIPSIS.with(|e| original::write_truncated_end(&mut out, &row.recorder, &e.1, row.width / 2)).unwrap();
        out
    };
    let out = Rc::new(RefCell::new(ruszvedok::FormatRecorder::new()));
    let kept = out.clone();
    let rattle = move |(typed, row): &(ruszvedok::FormatRecorder, Row)| {
        ruszvedok::write_truncated_end(&mut kept.borrow_mut(), typed, &ellipsis, row.width / 2).unwrap()
    };
    let check = |part: &(ruszvedok::FormatRecorder, Row)| -> Result<(), String> {
        rattle(part);
        let same = *out.borrow() == typed(&Recording::from_recorder(&rust(&part.1)).to_lists());
        if same { Ok(()) } else { Err("other results".into()) }
    };
    parts.iter().try_for_each(check)?;
    Pair::new(parts, |_| Ok(()), move |(_, row)| rust(row), rattle)
}

/// By 20 columns more than it has.
fn write_padded_start(input: &Input) -> Result<Pair, String> {
    recorded(
        input,
        |row, out| FILL.with(|f| original::write_padded_start(out, &row.recorder, &f.1, row.width + 20)).map(|_| 0),
        |row, room| FILL.with(|f| lent::write_padded_start(view(&row.lists), view(&f.0), row.width as u32 + 20, room.lent())),
    )
}

fn write_padded_end(input: &Input) -> Result<Pair, String> {
    recorded(
        input,
        |row, out| FILL.with(|f| original::write_padded_end(out, &row.recorder, &f.1, row.width + 20)).map(|_| 0),
        |row, room| FILL.with(|f| lent::write_padded_end(view(&row.lists), view(&f.0), row.width as u32 + 20, room.lent())),
    )
}

fn write_padded_centered(input: &Input) -> Result<Pair, String> {
    recorded(
        input,
        |row, out| FILL.with(|f| original::write_padded_centered(out, &row.recorder, &f.1, row.width + 20)).map(|_| 0),
        |row, room| FILL.with(|f| lent::write_padded_centered(view(&row.lists), view(&f.0), row.width as u32 + 20, room.lent())),
    )
}

fn write_indented(input: &Input) -> Result<Pair, String> {
    recorded(
        input,
        |row, out| PREFIX.with(|p| original::write_indented(out, &row.recorder, |out| p.1.replay(out))).map(|_| 0),
        |row, room| PREFIX.with(|p| lent::write_indented(view(&row.lists), view(&p.0), room.lent())),
    )
}

/// A page of 4,096 pushes, evenly apart, with so many labels in turn: numbered grades, which differ in their last bytes.
fn page(text: &[u8], labels: usize) -> Row {
    let mut data = text.to_vec();
    (1..data.len() / LINE).for_each(|i| data[i * LINE] = b'\n');
    let push = |i: usize| Entry { at: data.len() * i / PUSHES, kind: Kind::Push, text: format!("grade No. {:06}", i % labels).into_bytes() };
    let entries = (0..PUSHES).map(push).collect();
    of_recording(Recording { data, entries })
}

fn pages(input: &Input, labels: usize) -> Vec<Row> {
    input.texts.iter().map(|text| page(text, labels)).collect()
}

fn replay_pages(input: &Input, labels: usize) -> Result<Pair, String> {
    let rust = |row: &Row, out: &mut FormatRecorder| row.recorder.replay(out).map(|()| 0);
    recorded_rows(pages(input, labels), rust, |row, room| lent::replay(view(&row.lists), room.lent()))
}

fn write_indented_pages(input: &Input, labels: usize) -> Result<Pair, String> {
    let rust = |row: &Row, out: &mut FormatRecorder| PREFIX.with(|p| original::write_indented(out, &row.recorder, |out| p.1.replay(out))).map(|_| 0);
    recorded_rows(pages(input, labels), rust, |row, room| PREFIX.with(|p| lent::write_indented(view(&row.lists), view(&p.0), room.lent())))
}

/// A prefix with a label, pushed and popped before each of some 1,600 lines.
fn write_indented_labelled(input: &Input) -> Result<Pair, String> {
    const SHORT_LINE: usize = 40;
    let row = |text: &Vec<u8>| {
        let mut data: Vec<u8> = text.iter().map(|b| if *b == b'\n' { b' ' } else { *b }).collect();
        data.iter_mut().skip(SHORT_LINE - 1).step_by(SHORT_LINE).for_each(|b| *b = b'\n');
        of_recording(Recording::plain(&data))
    };
    let rows = input.texts.iter().map(row).collect();
    let (prefix, recorder) = second(b"> ");
    let prefix: &'static Lists = Box::leak(Box::new(prefix));
    let recorder: &'static FormatRecorder = Box::leak(Box::new(recorder));
    let rust = |row: &Row, out: &mut FormatRecorder| original::write_indented(out, &row.recorder, |out| recorder.replay(out)).map(|_| 0);
    recorded_rows(rows, rust, |row, room| lent::write_indented(view(&row.lists), view(prefix), room.lent()))
}

/// The same pages recorded by the type, which has to know its labels, and by the original.
fn typed_pushes(input: &Input, labels: usize) -> Result<Pair, String> {
    let rust = |row: &Row| row.recording.to_recorder();
    let rattle = |row: &Row| {
        let (mut made, mut at) = (ruszvedok::FormatRecorder::new(), 0);
        for entry in &row.recording.entries {
            made.write_data(&row.recording.data[at..entry.at]).unwrap();
            made.push_label(std::str::from_utf8(&entry.text).unwrap()).unwrap();
            at = entry.at;
        }
        made.write_data(&row.recording.data[at..]).unwrap();
        made
    };
    let check = move |row: &Row| {
        let (made, lists) = (rattle(row), &row.lists);
        let View { data, entries, text } = made.view();
        if (data, entries, text) == (&lists.data, &lists.entries, &lists.text) { Ok(()) } else { Err("other results".into()) }
    };
    Pair::new(pages(input, labels), check, rust, rattle)
}

/// The text in lines of half to one and a half times that many bytes, or in one if it is shorter. They begin with the prefix; a rest that has
/// no room for it becomes empty lines.
fn indented(text: &[u8], prefix: &[u8], line: usize, numbers: &mut Numbers) -> Vec<u8> {
    let mut data = text.to_vec();
    data.iter_mut().filter(|b| **b == b'\n').for_each(|b| *b = b' ');
    let mut rest = &mut data[..];
    while !rest.is_empty() {
        let len = if text.len() < line { line } else { numbers.within(line as u64 / 2, line as u64 * 3 / 2) as usize };
        let (line, after) = rest.split_at_mut(len.max(prefix.len() + 1).min(rest.len()));
        if line.len() > prefix.len() {
            line[..prefix.len()].copy_from_slice(prefix);
            line[line.len() - 1] = b'\n';
        } else {
            line.fill(b'\n');
        }
        rest = after;
    }
    data
}

/// A call of ours with a prefix or a label; gives back its refusal or 0.
type Ours = fn(&mut dyn Formatter, &FormatRecorder, &[u8]) -> Io<u64>;

/// With an entry for that many bytes, six in a short row. Against a function of ours: the original has none.
fn unindented_beside(rust: Ours, input: &Input, prefix: &'static [u8], line: usize, apart: usize) -> Result<Pair, String> {
    let mut numbers = Numbers::new(input.size as u64);
    let mut row = |text: &Vec<u8>| labelled(indented(text, prefix, line, &mut numbers), (text.len() / apart / 2 * 2).max(6));
    recorded_rows(
        input.texts.iter().map(&mut row).collect(),
        move |row, out| rust(out, &row.recorder, prefix),
        |row, room| lent::write_unindented(view(&row.lists), View { data: prefix, ..View::default() }, room.lent()),
    )
}

fn write_unindented(input: &Input, prefix: &'static [u8], line: usize, apart: usize) -> Result<Pair, String> {
    unindented_beside(ours::write_unindented, input, prefix, line, apart)
}

fn unindented_by_memchr(input: &Input, prefix: &'static [u8], line: usize) -> Result<Pair, String> {
    unindented_beside(ours::write_unindented_by_memchr, input, prefix, line, FEW)
}

/// Short rows at 30 columns, long texts at 72.
fn columns(row: &Row) -> usize {
    if row.lists.data.len() <= 1024 { 30 } else { 72 }
}

fn wrap_bytes(input: &Input) -> Result<Pair, String> {
    let most = LINE_NUMBERS * (input.size + 2);
    let rattle = |row: &Row, lines: &mut [u32]| lent::wrap_bytes(&row.lists.data, columns(row) as u32, false, lines);
    let check = move |row: &Row| {
        let expected = oracle::wrap_bytes(&row.lists.data, columns(row), false);
        let mut lines = vec![0; most];
        let got = Answer::from(rattle(row, &mut lines));
        let listed: Vec<_> = lent::Lines::new(&lines, got.number as usize).map(|l| (l.first, l.end, l.width)).collect();
        if (got.refusal, listed) == (0, expected) { Ok(()) } else { Err("other lines".into()) }
    };
    let lines = RefCell::new(vec![0; most]);
    Pair::new(
        rows(input),
        check,
        |row| original::wrap_bytes(&row.lists.data, columns(row), false).len(),
        move |row| rattle(row, &mut lines.borrow_mut()),
    )
}

thread_local! {
    static LINES: RefCell<Vec<u32>> = RefCell::new(vec![0; LINE_NUMBERS << 20]);
}

fn write_wrapped(input: &Input) -> Result<Pair, String> {
    recorded(
        input,
        // The library's number is the count of the lines, which the original does not return.
        |row, out| original::write_wrapped(out, &row.recorder, columns(row), false).map(|_| 0),
        |row, room| {
            let width = columns(row) as u32;
            let mut done = LINES.with(|lines| lent::write_wrapped(view(&row.lists), width, false, room.lent(), &mut lines.borrow_mut()))?;
            done.number = 0;
            Ok(done)
        },
    )
}

/// Four bytes of every 32 by three others.
fn write_replaced(input: &Input) -> Result<Pair, String> {
    recorded(
        input,
        |row, out| {
            let ranges: Vec<_> = (0..row.lists.data.len() / 32).map(|i| i * 32..i * 32 + 4).collect();
            original::write_replaced(out, &row.recorder, &ranges, |out, _| out.write_all(b"new")).map(|_| 0)
        },
        |row, room| {
            let record = |i| Replacement { start: i * 32, end: i * 32 + 4, from: 0, to: 3 };
            let records: Vec<_> = (0..row.lists.data.len() as u32 / 32).map(record).collect();
            lent::write_replaced(view(&row.lists), &records, b"new", room.lent())
        },
    )
}

/// With a stop every 8 columns, against a function of ours: the original has none.
fn write_tabs_expanded(input: &Input) -> Result<Pair, String> {
    recorded(
        &input.with_tabs(),
        |row, out| ours::write_tabs_expanded(out, &row.recorder, 8).map(|()| 0),
        |row, room| lent::write_tabs_expanded(view(&row.lists), 8, room.lent()),
    )
}

const PRICE: &[u8] = b"price";

/// The text in lines of that many bytes, each with entries: a part of the line for each of its places, a kind and its text.
fn in_lines(text: &[u8], line: usize, parts: &[(f64, Kind, &[u8])]) -> Recording {
    let mut made = Recording::plain(text);
    let lines = (text.len() / line).max(1);
    (1..lines).for_each(|i| made.data[i * line] = b'\n');
    for i in 0..lines {
        let entry = |(part, kind, text): &(f64, Kind, &[u8])| Entry { at: i * line + (part * line as f64) as usize, kind: *kind, text: text.to_vec() };
        made.entries.extend(parts.iter().map(entry));
    }
    made
}

/// Lines of 100 bytes, or of as many as 4,096 entries are enough for, with a label on a quarter of each and the one that hides on a tenth.
fn priced(text: &[u8]) -> Recording {
    let parts = [(0.1, Kind::Push, &b"grade"[..]), (0.35, Kind::Pop, b""), (0.8, Kind::Push, PRICE), (0.9, Kind::Pop, b"")];
    in_lines(text, text.len().min(LINE).max(text.len() / 1000), &parts)
}

/// All of it under the label that hides, in lines of 100 bytes.
fn priced_whole(text: &[u8]) -> Recording {
    let mut made = in_lines(text, text.len().min(LINE), &[]);
    made.entries = vec![Entry { at: 0, kind: Kind::Push, text: PRICE.to_vec() }, Entry { at: text.len(), kind: Kind::Pop, text: vec![] }];
    made
}

/// Six entries for 100 bytes: a raw sequence under the label that hides and one beside it, and a label inside of it.
fn priced_often(text: &[u8]) -> Recording {
    let raw = &b"\x1B[1m"[..];
    let parts = [(0.2, Kind::Raw, raw), (0.5, Kind::Push, PRICE), (0.5, Kind::Raw, raw), (0.55, Kind::Push, b"sum"), (0.6, Kind::Pop, b""), (0.65, Kind::Pop, b"")];
    in_lines(text, text.len().min(LINE), &parts)
}

fn rows_of(input: &Input, made: fn(&[u8]) -> Recording) -> Vec<Row> {
    input.texts.iter().map(|text| of_recording(made(text))).collect()
}

/// Against a function of ours: the original has none.
fn write_for_office(input: &Input) -> Result<Pair, String> {
    recorded_rows(
        rows_of(input, priced),
        |row, out| ours::write_for_office(out, &row.recorder, PRICE),
        |row, room| lent::write_for_office(view(&row.lists), PRICE, room.lent()),
    )
}

fn write_for_floor(rust: Ours, rows: Vec<Row>) -> Result<Pair, String> {
    recorded_rows(
        rows,
        move |row, out| rust(out, &row.recorder, PRICE),
        |row, room| lent::write_for_floor(view(&row.lists), PRICE, room.lent()),
    )
}

/// Bytes of a board row, and two lengths of a line that are none: no 0A, and nothing else.
const BOARD: usize = 80;
const NO_NEWLINE: usize = 0;
const ALL_NEWLINES: usize = 1;

/// A recording with its index, and that of its first nine tenths.
struct Indexed {
    lists: Lists,
    index: Vec<u32>,
    earlier: usize,
    before: Vec<u32>,
}

impl Indexed {
    /// In lines of about that many bytes, entries as in other rows.
    fn new(text: &[u8], line: usize, numbers: &mut Numbers) -> Self {
        let data = match line {
            NO_NEWLINE => text.iter().map(|byte| if *byte == b'\n' { b' ' } else { *byte }).collect(),
            _ => indented(text, b"", line, numbers),
        };
        let starts = |data: &[u8]| [0].into_iter().chain(ByByte::behind(data).map(|at| at as u32)).collect();
        let earlier = data.len() * 9 / 10;
        let (index, before) = (starts(&data), starts(&data[..earlier]));
        let count = (data.len() / FEW / 2 * 2).max(6);
        Self { lists: recordings::labelled(data, count).to_lists(), index, earlier, before }
    }
}

fn indexed(input: &Input, line: usize) -> Vec<Indexed> {
    let mut numbers = Numbers::new((input.size + line) as u64);
    input.texts.iter().map(|text| Indexed::new(text, line, &mut numbers)).collect()
}

/// Both sides leave the index in a list that is lent again and again: one that surely has room, or one that is exactly long enough. It holds
/// at first what `before` says of the content.
fn on_list(
    rows: Vec<Indexed>,
    exact: bool,
    before: fn(&Indexed) -> &[u32],
    rust: fn(&Indexed, &mut [u32]) -> Result<usize, u64>,
    rattle: fn(&Indexed, &mut [u32]) -> Left,
) -> Result<Pair, String> {
    let list = move |row: &Indexed| {
        let mut list = before(row).to_vec();
        list.resize(if exact { row.index.len() } else { row.lists.data.len() + 1 }, 7);
        list
    };
    let rows: Vec<_> = rows.into_iter().map(|row| (RefCell::new(list(&row)), RefCell::new(list(&row)), row)).collect();
    let check = |(ours, theirs, row): &(RefCell<Vec<u32>>, RefCell<Vec<u32>>, Indexed)| {
        let (count, got) = (rust(row, &mut ours.borrow_mut()), rattle(row, &mut theirs.borrow_mut()));
        let same = count == Ok(row.index.len()) && got.map(|done| done.number as usize).ok() == count.ok() && ours == theirs;
        if same && ours.borrow().starts_with(&row.index) { Ok(()) } else { Err(format!("other results: {count:?}, {got:?}")) }
    };
    Pair::new(rows, check, move |(ours, _, row)| rust(row, &mut ours.borrow_mut()), move |(_, theirs, row)| rattle(row, &mut theirs.borrow_mut()))
}

/// Against a function of ours, as in all cases of the line index: the original has none.
fn build_line_index<N: Newlines>(input: &Input, line: usize, exact: bool) -> Result<Pair, String> {
    on_list(
        indexed(input, line),
        exact,
        |_| &[],
        |row, list| ours::build_line_index::<N>(&row.lists, list),
        |row, list| lent::build_line_index(view(&row.lists), list),
    )
}

/// By the last tenth of the data.
fn extend_line_index<N: Newlines>(input: &Input, line: usize, exact: bool) -> Result<Pair, String> {
    on_list(
        indexed(input, line),
        exact,
        |row| &row.before,
        |row, list| ours::extend_line_index::<N>(&row.lists, row.earlier, list, row.before.len()),
        |row, list| lent::extend_line_index(view(&row.lists), row.earlier, list, row.before.len()),
    )
}

/// The line in the middle.
fn line_at<N: Newlines>(input: &Input, line: usize) -> Result<Pair, String> {
    Pair::of_values(
        indexed(input, line),
        |row| ours::line_at::<N>(&row.lists, &row.index, row.index.len() / 2),
        |row| lent::line_at(view(&row.lists), &row.index, row.index.len() / 2).map(|line| (line.start, line.end)).map_err(Refusal::number),
    )
}

/// The byte in the middle.
fn place_of<N: Newlines>(input: &Input, line: usize) -> Result<Pair, String> {
    Pair::of_values(
        indexed(input, line),
        |row| ours::place_of::<N>(&row.lists, &row.index, row.lists.data.len() / 2),
        |row| lent::place_of(view(&row.lists), &row.index, row.lists.data.len() / 2).map(|at| (at.line, at.column)).map_err(Refusal::number),
    )
}

/// The width of all cells of a page.
#[derive(Clone, Copy)]
enum Width {
    /// That of the widest cell: none is cut.
    All,
    /// That of the cell in the middle: about half of them are cut.
    Middle,
    /// A quarter of that: hardly any is not cut.
    Few,
}

/// Cells one behind the other, with their ends, and how long their results are.
struct Page {
    content: Vec<u8>,
    ends: Vec<u32>,
    width: u32,
    left: usize,
}

impl Page {
    /// So many cells of half to one and a half times the same length, none of which ends inside of a character.
    fn new(text: &[u8], count: usize, width: Width, numbers: &mut Numbers) -> Self {
        let mean = text.len() / count;
        let end = |k: usize, numbers: &mut Numbers| {
            let about = mean * k - mean / 4 + numbers.within(0, mean as u64 / 2) as usize;
            (0..=about).rev().find(|at| text[*at] & 0xC0 != 0x80).unwrap_or(0) as u32
        };
        let ends: Vec<_> = (1..count).map(|k| end(k, numbers)).chain([text.len() as u32]).collect();
        let mut made = Self { content: text.to_vec(), ends, width: 0, left: 0 };
        let mut widths: Vec<_> = made.cells().map(|cell| original::text_width(cell) as u32).collect();
        widths.sort_unstable();
        made.width = match width {
            Width::All => widths[count - 1],
            Width::Middle => widths[count / 2],
            Width::Few => widths[count / 2] / 4,
        };
        made.left = made.by_ours(&mut made.bytes(false), &mut made.list()).unwrap();
        made
    }

    fn cells(&self) -> impl Iterator<Item = &[u8]> {
        let starts = [0].into_iter().chain(self.ends.iter().copied());
        starts.zip(&self.ends).map(|(start, end)| &self.content[start as usize..*end as usize])
    }

    /// A buffer that is exactly long enough, or surely.
    fn bytes(&self, exact: bool) -> Vec<u8> {
        vec![7; if exact { self.left } else { self.content.len() + self.ends.len() * CELLS_ELLIPSIS.len() }]
    }

    fn list(&self) -> Vec<u32> {
        vec![7; self.ends.len() * CELL_NUMBERS]
    }

    fn by_ours(&self, bytes: &mut [u8], list: &mut [u32]) -> Result<usize, u64> {
        ours::write_truncated_cells(&self.content, &self.ends, CELLS_ELLIPSIS, self.width, bytes, list)
    }

    fn by_library(&self, bytes: &mut [u8], list: &mut [u32]) -> Result<usize, u64> {
        let left = lent::write_truncated_cells(&self.content, &self.ends, CELLS_ELLIPSIS, self.width, bytes, list);
        left.map(|done| done.used.data).map_err(Refusal::number)
    }

    /// A call for each cell, which leaves its bytes behind those before it, and its numbers in the list.
    fn by_calls(&self, bytes: &mut [u8], list: &mut [u32]) -> Result<usize, u64> {
        let plain = |data| View { data, ..View::default() };
        let mut at = 0;
        for (cell, numbers) in self.cells().zip(list.chunks_exact_mut(CELL_NUMBERS)) {
            let out = Buffers { data: &mut bytes[at..], ..Buffers::default() };
            let done = lent::write_truncated_end(plain(cell), plain(CELLS_ELLIPSIS), self.width, out).map_err(Refusal::number)?;
            at += done.used.data;
            numbers.copy_from_slice(&[at as u32, done.number as u32]);
        }
        Ok(at)
    }
}

const CELLS_ELLIPSIS: &[u8] = "…".as_bytes();

/// Both sides leave bytes and list in buffers that are lent again and again.
fn on_page(
    input: &Input,
    count: usize,
    width: Width,
    exact: bool,
    one: fn(&Page, &mut [u8], &mut [u32]) -> Result<usize, u64>,
) -> Result<Pair, String> {
    type Lent = RefCell<(Vec<u8>, Vec<u32>)>;
    let mut numbers = Numbers::new((input.size + count) as u64);
    let page = |text: &Vec<u8>| {
        let page = Page::new(text, count, width, &mut numbers);
        let lent = || RefCell::new((page.bytes(exact), page.list()));
        (lent(), lent(), page)
    };
    let pages: Vec<(Lent, Lent, Page)> = input.texts.iter().map(page).collect();
    let on = |call: fn(&Page, &mut [u8], &mut [u32]) -> Result<usize, u64>, lent: &Lent, page: &Page| {
        let (bytes, list) = &mut *lent.borrow_mut();
        call(page, bytes, list)
    };
    let check = move |(first, second, page): &(Lent, Lent, Page)| {
        let (expected, got) = (on(one, first, page), on(Page::by_library, second, page));
        if expected == got && got == Ok(page.left) && first == second { Ok(()) } else { Err(format!("other results: {expected:?}, {got:?}")) }
    };
    Pair::new(pages, check, move |(lent, _, page)| on(one, lent, page), move |(_, lent, page)| on(Page::by_library, lent, page))
}

/// Against a function of ours: the original has none.
fn write_truncated_cells(input: &Input, count: usize, width: Width, exact: bool) -> Result<Pair, String> {
    on_page(input, count, width, exact, Page::by_ours)
}

/// Against the library itself: the other side is a call of `write_truncated_end` for each cell.
fn cells_by_calls(input: &Input, count: usize, width: Width) -> Result<Pair, String> {
    on_page(input, count, width, false, Page::by_calls)
}

/// An input of a tally sheet, its columns, and how long its sheet is.
struct Tally {
    input: Vec<u8>,
    columns: Vec<u32>,
    width: usize,
    left: usize,
}

impl Tally {
    /// The text in cells of half to one and a half times so many bytes, in lines of so many cells; the second column is that of the boards. The
    /// columns have one width, and the three alignments in turns.
    fn new(text: &[u8], count: usize, cell: usize, width: u32, numbers: &mut Numbers) -> Self {
        let text = text.replace(",", ".");
        let lines = text.len() / (count * cell);
        let (mut input, mut from) = (vec![], 0);
        for n in 0..lines * count {
            let about = cell * (n + 1) - cell / 4 + numbers.within(0, cell as u64 / 2) as usize;
            let end = (from..=about.min(text.len())).rev().find(|at| text.get(*at).is_none_or(|byte| byte & 0xC0 != 0x80)).unwrap();
            match (n / count, n % count) {
                (0, 1) => input.extend_from_slice(b"boards"),
                (_, 1) => input.extend(numbers.within(0, 999).to_string().into_bytes()),
                _ => input.extend_from_slice(&text[from..end]),
            }
            from = end;
            input.push(if n % count + 1 == count { b'\n' } else { b',' });
        }
        let columns = (0..count as u32).flat_map(|k| [width, k % 3]).collect();
        let mut made = Self { input, columns, width: lines * count * width as usize, left: 0 };
        made.left = made.by_ours(&mut made.bytes(false)).unwrap();
        made
    }

    /// A buffer that is exactly long enough, or surely.
    fn bytes(&self, exact: bool) -> Vec<u8> {
        vec![7; if exact { self.left } else { self.input.len() + self.width + 16 }]
    }

    fn by_ours(&self, bytes: &mut [u8]) -> Result<usize, u64> {
        ours::write_tally(&self.input, &self.columns, bytes)
    }

    fn by_library(&self, bytes: &mut [u8]) -> Result<usize, u64> {
        lent::write_tally(&self.input, &self.columns, bytes).map(|done| done.used.data).map_err(Refusal::number)
    }
}

/// Against a function of ours: the original has none. Both sides leave the sheet in a buffer that is lent again and again.
fn write_tally(input: &Input, count: usize, cell: usize, width: u32, exact: bool) -> Result<Pair, String> {
    type Lent = RefCell<Vec<u8>>;
    let mut numbers = Numbers::new((input.size + count) as u64);
    let tally = |text: &Vec<u8>| {
        let tally = Tally::new(text, count, cell, width, &mut numbers);
        let lent = || RefCell::new(tally.bytes(exact));
        (lent(), lent(), tally)
    };
    let sheets: Vec<(Lent, Lent, Tally)> = input.texts.iter().map(tally).collect();
    let check = |(first, second, tally): &(Lent, Lent, Tally)| {
        let (expected, got) = (tally.by_ours(&mut first.borrow_mut()), tally.by_library(&mut second.borrow_mut()));
        if expected == got && got == Ok(tally.left) && first == second { Ok(()) } else { Err(format!("other results: {expected:?}, {got:?}")) }
    };
    Pair::new(
        sheets,
        check,
        |(lent, _, tally)| tally.by_ours(&mut lent.borrow_mut()),
        |(_, lent, tally)| tally.by_library(&mut lent.borrow_mut()),
    )
}

/// Well-formed texts of the size, with half of their width.
fn plain(input: &Input) -> Vec<(String, usize)> {
    let made = |bytes: &Vec<u8>| {
        let mut s = String::from_utf8_lossy(bytes).into_owned();
        while s.len() > input.size {
            s.pop();
        }
        let width = original::text_width(s.as_bytes());
        (s, width / 2)
    };
    input.texts.iter().map(made).collect()
}

fn texts(
    input: &Input,
    rust: impl Fn(&str, usize) -> (String, usize) + Copy + 'static,
    rattle: impl Fn(&[u8], u32, &mut [u8]) -> Left + Copy + 'static,
) -> Result<Pair, String> {
    let check = move |(s, max): &(String, usize)| {
        let (expected, width) = rust(s, *max);
        let mut out = vec![0; 1 << 20];
        let got = Answer::from(rattle(s.as_bytes(), *max as u32, &mut out));
        let same = got.refusal == 0 && &out[..got.data as usize] == expected.as_bytes() && got.number == width as u64;
        if same { Ok(()) } else { Err(format!("other results: {got:?}, {width}")) }
    };
    let out = RefCell::new(vec![0; 1 << 20]);
    Pair::new(plain(input), check, move |(s, max)| rust(s, *max), move |(s, max)| rattle(s.as_bytes(), *max as u32, &mut out.borrow_mut()))
}

fn elide_start(input: &Input) -> Result<Pair, String> {
    texts(input, |s, max| oracle::elide_start(s, "..", max), |s, max, out| lent::elide_start(s, b"..", max, out))
}

fn elide_end(input: &Input) -> Result<Pair, String> {
    texts(input, |s, max| oracle::elide_end(s, "..", max), |s, max, out| lent::elide_end(s, b"..", max, out))
}

fn complete_newline(input: &Input) -> Result<Pair, String> {
    texts(input, |s, _| (oracle::complete_newline(s), 0), |s, _, out| lent::complete_newline(s, out))
}

/// A text that Rust's side has as bytes and tests first, as the library does in each call; above, its `str` has been tested before.
fn tested(bytes: &[u8]) -> &str {
    std::str::from_utf8(black_box(bytes)).unwrap()
}

fn elide_start_from_bytes(input: &Input) -> Result<Pair, String> {
    texts(input, |s, max| oracle::elide_start(tested(s.as_bytes()), "..", max), |s, max, out| lent::elide_start(s, b"..", max, out))
}

fn elide_end_from_bytes(input: &Input) -> Result<Pair, String> {
    texts(input, |s, max| oracle::elide_end(tested(s.as_bytes()), "..", max), |s, max, out| lent::elide_end(s, b"..", max, out))
}

fn complete_newline_from_bytes(input: &Input) -> Result<Pair, String> {
    texts(input, |s, _| (oracle::complete_newline(tested(s.as_bytes())), 0), |s, _, out| lent::complete_newline(s, out))
}

/// A recording made from nothing by appending data, labels and pops.
fn made_by_adding(input: &Input) -> Result<Pair, String> {
    recorded(
        input,
        |row, out| {
            let mut at = 0;
            for entry in &row.recording.entries {
                out.write_all(&row.recording.data[at..entry.at])?;
                at = entry.at;
                match entry.kind {
                    Kind::Push => out.push_label(std::str::from_utf8(&entry.text).unwrap()),
                    _ => out.pop_label(),
                }
            }
            out.write_all(&row.recording.data[at..]).map(|()| 0)
        },
        |row, room| {
            let (mut at, mut u) = (0, Used::default());
            for entry in &row.recording.entries {
                u = lent::write(room.lent(), u, &row.recording.data[at..entry.at])?.used;
                at = entry.at;
                let added = match entry.kind {
                    Kind::Push => lent::push_label(room.lent(), u, &entry.text),
                    _ => lent::pop_label(room.lent(), u),
                };
                u = added?.used;
            }
            lent::write(room.lent(), u, &row.recording.data[at..])
        },
    )
}
