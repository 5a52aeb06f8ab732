//! A list of calls in one call is the same calls one by one: random lists, over lent buffers to the last element of each, and over the
//! type; and what refuses a whole list.
use ruszvedok::lent::{self, Buffers, Call, Done, Kind, Pools, Replacement, Used, View};
use ruszvedok::*;

mod numbers;
use numbers::Numbers;

impl Numbers {
    fn of<'a, T>(&mut self, all: &'a [T]) -> &'a T {
        &all[self.below(all.len())]
    }

    /// Mostly small, 0 included; sometimes what no buffer and no limit has room for.
    fn width(&mut self) -> usize {
        *self.of(&[0, 1, 2, 3, 5, 7, 9, 12, 12, 20, 40, u32::MAX as usize])
    }
}

// ---- over lent buffers ----

/// Three buffers.
#[derive(Clone, Debug, PartialEq, Eq)]
struct Set {
    data: Vec<u8>,
    entries: Vec<u32>,
    text: Vec<u8>,
}

impl Set {
    /// Of these lengths, with what no call leaves.
    fn new(length: Used) -> Self {
        Self { data: vec![0xA5; length.data], entries: vec![777; length.entries], text: vec![0x5A; length.text] }
    }

    fn lend(&mut self) -> Buffers<'_> {
        Buffers { data: &mut self.data, entries: &mut self.entries, text: &mut self.text }
    }

    fn view(&self, used: Used) -> View<'_> {
        View { data: &self.data[..used.data], entries: &self.entries[..used.entries], text: &self.text[..used.text] }
    }

    /// Puts a recording at the front.
    fn put(&mut self, content: View) -> Used {
        self.data[..content.data.len()].copy_from_slice(content.data);
        self.entries[..content.entries.len()].copy_from_slice(content.entries);
        self.text[..content.text.len()].copy_from_slice(content.text);
        Used { data: content.data.len(), entries: content.entries.len(), text: content.text.len() }
    }
}

/// All that a list is lent, and what is answered.
#[derive(Clone, Debug, PartialEq, Eq)]
struct Lent {
    first: Set,
    other: Set,
    lines: Vec<u32>,
    answers: Vec<[u64; 2]>,
}

impl Lent {
    fn new(length: Used, lines: usize, answers: usize) -> Self {
        Self { first: Set::new(length), other: Set::new(length), lines: vec![555; lines], answers: vec![[99; 2]; answers] }
    }

    fn run(&mut self, calls: &[Call], pools: Pools, used: Used) -> Result<Done, Refusal> {
        lent::run_calls(calls, pools, used, self.first.lend(), self.other.lend(), &mut self.lines, &mut self.answers)
    }
}

fn range<T>(pool: &[T], [from, to]: [u32; 2]) -> &[T] {
    &pool[from as usize..to as usize]
}

/// One call by itself.
fn one(call: &Call, pools: Pools, content: View, out: Buffers, lines: &mut [u32]) -> Result<Done, Refusal> {
    let (data, entries, text) = (range(pools.bytes, call.data), range(pools.numbers, call.entries), range(pools.bytes, call.text));
    let second = View { data, entries, text };
    match call.kind {
        Kind::TruncateStart => lent::write_truncated_start(content, second, call.width, out),
        Kind::TruncateEnd => lent::write_truncated_end(content, second, call.width, out),
        Kind::PadStart => lent::write_padded_start(content, second, call.width, out),
        Kind::PadEnd => lent::write_padded_end(content, second, call.width, out),
        Kind::PadCentered => lent::write_padded_centered(content, second, call.width, out),
        Kind::Indent => lent::write_indented(content, second, out),
        Kind::Wrap => lent::write_wrapped(content, call.width, false, out, lines),
        Kind::WrapBreaking => lent::write_wrapped(content, call.width, true, out, lines),
        Kind::Replace => {
            let record = |at: &[u32]| Replacement { start: at[0], end: at[1], from: at[2], to: at[3] };
            lent::write_replaced(content, &entries.chunks_exact(4).map(record).collect::<Vec<_>>(), data, out)
        }
        Kind::ExpandTabs => lent::write_tabs_expanded(content, call.width, out),
        Kind::Unindent => lent::write_unindented(content, second, out),
        _ => unreachable!(),
    }
}

/// All calls one by one, back and forth between the two sets; the result is copied to the first one.
fn one_by_one(to: &mut Lent, calls: &[Call], pools: Pools, mut used: Used) -> (Used, u64) {
    let (mut in_first, mut made) = (true, 0);
    for (k, call) in calls.iter().enumerate() {
        let (from, into) = if in_first { (&to.first, &mut to.other) } else { (&to.other, &mut to.first) };
        match one(call, pools, from.view(used), into.lend(), &mut to.lines) {
            Ok(done) => {
                to.answers[k] = [0, done.number];
                (in_first, used, made) = (!in_first, done.used, made + 1);
            }
            Err(refusal) => to.answers[k] = [refusal.number(), 0],
        }
    }
    if !in_first {
        to.first.put(to.other.view(used));
    }
    (used, made)
}

/// Second recordings: without entries, with labels and raw sequences, and with a fault that refuses each of 2 to 6.
const SECONDS: [View; 12] = [
    View { data: b"", entries: &[], text: b"" },
    View { data: b".", entries: &[], text: b"" },
    View { data: b"..", entries: &[], text: b"" },
    View { data: "\u{301}木".as_bytes(), entries: &[], text: b"" },
    View { data: b"> ", entries: &[0, 0, 1, 2, 2, 1, 0, 0], text: b"xyz" },
    View { data: b"-", entries: &[0, 2, 0, 2, 1, 0, 1, 1, 1, 1, 0, 0], text: b"ab" },
    View { data: b"\n", entries: &[], text: b"" },
    View { data: b".", entries: &[0, 1, 0], text: b"" },
    View { data: b".", entries: &[0, 3, 0, 0], text: b"" },
    View { data: b".", entries: &[2, 1, 0, 0], text: b"" },
    View { data: b".", entries: &[0, 0, 0, 2], text: b"a" },
    View { data: b".", entries: &[0, 0, 0, 1], text: b"\xFF" },
];

/// Replacement records and their text: in range for most contents or for few, not for any, with a number too many.
const RECORDS: [View; 6] = [
    View { data: b"XY", entries: &[0, 1, 0, 1, 1, 1, 1, 2], text: b"" },
    View { data: b"oak\n", entries: &[2, 2, 0, 4], text: b"" },
    View { data: b"", entries: &[3, 9, 0, 0], text: b"" },
    View { data: b"X", entries: &[0, 0, 0, 2], text: b"" },
    View { data: b"X", entries: &[1, 0, 0, 1], text: b"" },
    View { data: b"X", entries: &[0, 0, 0, 1, 7], text: b"" },
];

const CONTENTS: [View; 7] = [
    View { data: b"oak 12 ft\n\nspruce b", entries: &[0, 0, 0, 2, 3, 1, 0, 0, 11, 0, 2, 1, 19, 1, 0, 0], text: b"woodx" },
    View { data: b"fir", entries: &[1, 2, 0, 3], text: b"\x1B[m" },
    View { data: b"", entries: &[], text: b"" },
    View { data: b"\xCC\x81\xE6\x9C\xA8\xEF\xB8\x8F a\xE6", entries: &[], text: b"" },
    View { data: b"\tb\xE6\t\n\t\t\xE6\x9C\xA8\t", entries: &[3, 0, 0, 1, 4, 1, 0, 0, 6, 2, 1, 2, 10, 0, 0, 1], text: b"x\x1B[" },
    View { data: b"> a\n\n> > b\n> ", entries: &[0, 0, 0, 1, 1, 2, 1, 2, 6, 1, 0, 0, 13, 0, 0, 1], text: b"x\x1B[" },
    View { data: b"ill", entries: &[4, 1, 0, 0], text: b"" },
];

const KINDS: &[Kind] = &[
    Kind::TruncateStart,
    Kind::TruncateEnd,
    Kind::PadStart,
    Kind::PadEnd,
    Kind::PadCentered,
    Kind::Indent,
    Kind::Wrap,
    Kind::WrapBreaking,
    Kind::Replace,
    Kind::ExpandTabs,
    Kind::Unindent,
];

/// Puts a part at a pool's end.
fn pooled<T: Copy>(pool: &mut Vec<T>, part: &[T]) -> [u32; 2] {
    let start = pool.len() as u32;
    pool.extend_from_slice(part);
    [start, pool.len() as u32]
}

#[test]
fn lent_as_one_by_one() {
    let mut random = Numbers(7);
    let mut seen = [[0; 2]; KINDS.len()];
    let mut refusals = std::collections::BTreeSet::new();
    for _ in 0..20_000 {
        let (mut bytes, mut numbers) = (vec![], vec![]);
        let calls: Vec<Call> = (0..random.below(7))
            .map(|_| {
                let kind = *random.of(KINDS);
                let part = *random.of(if kind == Kind::Replace { &RECORDS } else { &SECONDS });
                let (data, entries) = (pooled(&mut bytes, part.data), pooled(&mut numbers, part.entries));
                Call { kind, width: random.width() as u32, data, entries, text: pooled(&mut bytes, part.text) }
            })
            .collect();
        let pools = Pools { bytes: &bytes, numbers: &numbers };
        // Sometimes no longer than the content, so that results pass their buffers.
        let content = *random.of(&CONTENTS);
        let mut length = |content: usize| content + *random.of(&[0, 8, 100]);
        let length = Used { data: length(content.data.len()), entries: length(content.entries.len()), text: length(content.text.len()) };
        let mut lent = Lent::new(length, *random.of(&[0, 9, 100]), calls.len() + random.below(2));
        let used = lent.first.put(content);
        let mut wanted = lent.clone();
        let left = one_by_one(&mut wanted, &calls, pools, used);
        let done = lent.run(&calls, pools, used).unwrap();
        assert_eq!((done.used, done.number), left, "{calls:?}");
        assert_eq!(lent, wanted, "{calls:?}");
        for (call, [refusal, _]) in calls.iter().zip(&lent.answers) {
            seen[call.kind as usize][usize::from(*refusal != 0)] += 1;
            refusals.insert(*refusal);
        }
    }
    // Each kind was run and was refused, and each refusal that lists like these can have was there.
    assert!(seen.iter().flatten().all(|count| *count > 100), "{seen:?}");
    assert!(refusals.iter().eq(&[0, 2, 3, 4, 5, 6, 8, 9, 21, 22, 23, 24, 31, 32, 33]), "{refusals:?}");
}

/// What refuses a whole list: its number, and nothing is touched.
#[test]
fn refused_as_a_whole() {
    let length = Used { data: 4, entries: 8, text: 2 };
    let pools = Pools { bytes: b"abc", numbers: &[0; 4] };
    let call = Call { kind: Kind::Indent, width: 0, data: [0, 1], entries: [4, 4], text: [3, 3] };
    let number = |mut lent: Lent, calls: &[Call], used: Used| {
        let before = lent.clone();
        let refused = lent.run(calls, pools, used).map_or_else(Refusal::number, |_| 0);
        assert!(refused == 0 || lent == before);
        refused
    };
    let fine = || Lent::new(length, 0, 1);
    let none = Used::default();
    assert_eq!(number(fine(), &[call], none), 0);
    assert_eq!(number(fine(), &[call], Used { data: 5, ..none }), 10);
    assert_eq!(number(fine(), &[call], Used { entries: 9, ..none }), 10);
    assert_eq!(number(fine(), &[call], Used { text: 3, ..none }), 10);
    for other in [Used { data: 3, ..length }, Used { entries: 9, ..length }, Used { text: 1, ..length }] {
        assert_eq!(number(Lent { other: Set::new(other), ..fine() }, &[call], none), 61);
        // 10 comes first.
        assert_eq!(number(Lent { other: Set::new(other), ..fine() }, &[call], Used { data: 5, ..none }), 10);
    }
    let ranges = [
        Call { data: [1, 0], ..call },
        Call { data: [0, 4], ..call },
        Call { entries: [4, 3], ..call },
        Call { entries: [4, 5], ..call },
        Call { text: [3, 2], ..call },
        Call { text: [4, 4], ..call },
        // Also where the range is not used.
        Call { kind: Kind::Wrap, data: [u32::MAX, u32::MAX], ..call },
    ];
    for bad in ranges {
        assert_eq!(number(fine(), &[bad], none), 62, "{bad:?}");
        // Anywhere in the list, before 63 and behind 61.
        assert_eq!(number(fine(), &[call, call, bad], none), 62, "{bad:?}");
        assert_eq!(number(Lent { other: Set::new(none), ..fine() }, &[bad], none), 61);
    }
    assert_eq!(number(fine(), &[call, call], none), 63);
    assert_eq!(number(Lent::new(length, 0, 2), &[call, call], none), 0);
    assert_eq!(number(Lent::new(length, 0, 0), &[], none), 0);
}

// ---- over the type ----

/// One call by itself.
fn layout(out: &mut FormatRecorder, content: &FormatRecorder, call: Layout) -> Result<usize, Refusal> {
    match call {
        Layout::TruncateStart { max_width, ellipsis } => write_truncated_start(out, content, ellipsis, max_width),
        Layout::TruncateEnd { max_width, ellipsis } => write_truncated_end(out, content, ellipsis, max_width),
        Layout::PadStart { min_width, fill } => write_padded_start(out, content, fill, min_width).map(|()| 0),
        Layout::PadEnd { min_width, fill } => write_padded_end(out, content, fill, min_width).map(|()| 0),
        Layout::PadCentered { min_width, fill } => write_padded_centered(out, content, fill, min_width).map(|()| 0),
        Layout::Indent { prefix } => write_indented(out, content, prefix).map(|()| 0),
        Layout::Wrap { width, break_words } => write_wrapped(out, content, width, break_words).map(|lines| lines.len()),
        Layout::Replace { records, text } => write_replaced(out, content, records, text).map(|()| 0),
        Layout::ExpandTabs { stop } => write_tabs_expanded(out, content, stop).map(|()| 0),
        Layout::Unindent { prefix } => write_unindented(out, content, prefix).map(|()| 0),
        _ => unreachable!(),
    }
}

/// The same result and the same answers as one by one.
fn same(out: &mut FormatRecorder, content: &FormatRecorder, layouts: &[Layout]) -> Vec<Result<usize, Refusal>> {
    let (mut row, mut next) = (content.clone(), FormatRecorder::new());
    let mut wanted = vec![];
    for call in layouts {
        let answer = layout(&mut next, &row, *call);
        if answer.is_ok() {
            std::mem::swap(&mut row, &mut next);
        }
        wanted.push(answer);
    }
    let answers = run_layouts(out, content, layouts).unwrap();
    assert_eq!(answers, wanted, "{layouts:?}");
    assert_eq!(*out, row, "{layouts:?}");
    answers
}

/// A content as the type has it: without the ill-formed one.
fn rows() -> Vec<FormatRecorder> {
    CONTENTS.iter().filter_map(|view| FormatRecorder::try_from(*view).ok()).collect()
}

#[test]
fn layouts_as_one_by_one() {
    let seconds: Vec<_> = SECONDS.iter().filter_map(|view| FormatRecorder::try_from(*view).ok()).collect();
    let at = |start, end, from, to| Replacement { start, end, from, to };
    let records = [vec![at(0, 1, 0, 1), at(1, 1, 1, 2)], vec![at(2, 2, 0, 2)], vec![at(3, 9, 0, 0)], vec![at(0, 0, 0, 3)], vec![]];
    let (mut random, mut out) = (Numbers(3), FormatRecorder::new());
    let (mut refused, mut made) = (0, 0);
    for _ in 0..3000 {
        let layouts: Vec<Layout> = (0..random.below(7))
            .map(|_| {
                let (width, second) = (random.width(), random.of(&seconds));
                match random.of(KINDS) {
                    Kind::TruncateStart => Layout::TruncateStart { max_width: width, ellipsis: second },
                    Kind::TruncateEnd => Layout::TruncateEnd { max_width: width, ellipsis: second },
                    Kind::PadStart => Layout::PadStart { min_width: width, fill: second },
                    Kind::PadEnd => Layout::PadEnd { min_width: width, fill: second },
                    Kind::PadCentered => Layout::PadCentered { min_width: width, fill: second },
                    Kind::Indent => Layout::Indent { prefix: second },
                    Kind::Wrap => Layout::Wrap { width, break_words: false },
                    Kind::WrapBreaking => Layout::Wrap { width, break_words: true },
                    Kind::Replace => Layout::Replace { records: &random.of(&records)[..], text: b"X\n" },
                    Kind::ExpandTabs => Layout::ExpandTabs { stop: width },
                    Kind::Unindent => Layout::Unindent { prefix: second },
                    _ => unreachable!(),
                }
            })
            .collect();
        // With buffers that were used before, and with none.
        if random.below(2) == 0 {
            out = FormatRecorder::new();
        }
        for answer in same(&mut out, random.of(&rows()), &layouts) {
            match answer {
                Ok(_) => made += 1,
                Err(refusal) => {
                    assert!(matches!(refusal.number(), 8 | 9 | 31..=33));
                    refused += 1;
                }
            }
        }
    }
    assert!(made > 5000 && refused > 500, "{made} {refused}");
}

/// Each buffer grows up to its limit, and one beyond is refused as for the call alone.
#[test]
fn up_to_the_limits() {
    let (row, dot) = (FormatRecorder::with_data("a\n".repeat(MAX_ENTRIES / 2)).unwrap(), FormatRecorder::with_data(".").unwrap());
    let mut prefix = FormatRecorder::new();
    // A raw sequence, which is stored for each line.
    prefix.raw(&[b'x'; MAX_TEXT / (MAX_ENTRIES / 2)]).unwrap();
    prefix.pop_label().unwrap();
    let mut out = FormatRecorder::new();
    let (indent, feeds) = (Layout::Indent { prefix: &prefix }, FormatRecorder::with_data("\n").unwrap());
    let answers = same(&mut out, &row, &[indent, indent, Layout::PadEnd { min_width: MAX_DATA / 2, fill: &dot }]);
    assert_eq!(answers, [Ok(0), Err(Refusal::ResultOverLimit), Ok(0)]);
    assert_eq!((out.view().entries.len(), out.view().text.len()), (4 * MAX_ENTRIES, MAX_TEXT));

    let fill = |min_width| Layout::PadStart { min_width, fill: &feeds };
    let wrap = Layout::Wrap { width: 1, break_words: true };
    let answers = same(&mut FormatRecorder::new(), &FormatRecorder::new(), &[fill(MAX_DATA + 1), fill(MAX_DATA), wrap, fill(1)]);
    assert_eq!(answers, [Err(Refusal::ResultOverLimit), Ok(0), Ok(MAX_DATA + 1), Err(Refusal::ResultOverLimit)]);
}

/// No call: the content. Only refused ones: the content too.
#[test]
fn nothing_made() {
    let dot = FormatRecorder::with_data(".").unwrap();
    for row in rows() {
        let mut out = FormatRecorder::with_data("held").unwrap();
        assert_eq!(same(&mut out, &row, &[]), []);
        let refused = [Layout::PadEnd { min_width: usize::MAX, fill: &dot }; 3];
        assert_eq!(same(&mut out, &row, &refused), [Err(Refusal::ResultOverLimit); 3]);
        assert_eq!(out, row);
    }
}
