//! What the type adds by itself is what the proved calls leave: random lists of adding, with refusals and limits.
use ruszvedok::lent::{self, Buffers, Done, Used, View};
use ruszvedok::*;

mod numbers;
use numbers::Numbers;

impl Numbers {
    /// Mostly small, sometimes around a limit.
    fn size(&mut self, limit: usize) -> usize {
        match self.below(16) {
            0 => limit - self.below(4) + self.below(6),
            1 => self.below(limit),
            _ => self.below(9),
        }
    }

    fn text(&mut self, limit: usize) -> String {
        let size = self.size(limit);
        let start = self.below(26);
        (0..size).map(|k| (b'a' + ((start + k) % 26) as u8) as char).collect()
    }

    /// One of a few, so that equal labels come often; or the smaller of two, so that not every list is full at once.
    fn label(&mut self) -> String {
        if self.below(2) == 0 {
            return ["", "a", "ab", "b", "grade", "grades"][self.below(6)].into();
        }
        let (a, b) = (self.text(MAX_TEXT), self.text(MAX_TEXT));
        if a.len() < b.len() { a } else { b }
    }
}

/// A recording in buffers as long as the limits, to which only the proved calls add.
struct Lent {
    data: Vec<u8>,
    entries: Vec<u32>,
    text: Vec<u8>,
    used: Used,
}

impl Lent {
    fn new() -> Self {
        Self { data: vec![0xA5; MAX_DATA], entries: vec![7; MAX_ENTRY_NUMBERS], text: vec![0xA5; MAX_TEXT], used: Used::default() }
    }

    fn view(&self) -> View<'_> {
        View { data: &self.data[..self.used.data], entries: &self.entries[..self.used.entries], text: &self.text[..self.used.text] }
    }

    fn add(&mut self, call: impl FnOnce(Buffers, Used) -> Result<Done, Refusal>) -> Result<(), Refusal> {
        let buffers = Buffers { data: &mut self.data, entries: &mut self.entries, text: &mut self.text };
        self.used = call(buffers, self.used)?.used;
        Ok(())
    }

    fn write(&mut self, data: &[u8]) -> Result<(), Refusal> {
        self.add(|to, used| lent::write(to, used, data))
    }

    fn op(&mut self, op: FormatOp) -> Result<(), Refusal> {
        self.add(|to, used| match op {
            FormatOp::PushLabel(label) => lent::push_label(to, used, label.as_bytes()),
            FormatOp::PopLabel => lent::pop_label(to, used),
            FormatOp::RawEscapeSequence(sequence) => lent::raw(to, used, sequence),
            _ => unreachable!(),
        })
    }

    /// Adds several things, or nothing if one of them is refused.
    fn all(&mut self, add: impl FnOnce(&mut Self) -> Result<(), Refusal>) -> Result<(), Refusal> {
        let before = self.used;
        add(self).inspect_err(|_| self.used = before)
    }

    fn append(&mut self, other: &FormatRecorder) -> Result<(), Refusal> {
        self.all(|to| other.replay_with(to, |to, op| to.op(op), |to, range| to.write(&other.data()[range])))
    }

    fn labeled(&mut self, label: &str, add: impl FnOnce(&mut Self) -> Result<(), Refusal>) -> Result<(), Refusal> {
        self.all(|to| {
            to.op(FormatOp::PushLabel(label))?;
            add(to)?;
            to.op(FormatOp::PopLabel)
        })
    }
}

/// One random thing added to both.
fn step(numbers: &mut Numbers, row: &mut FormatRecorder, model: &mut Lent, other: &FormatRecorder) -> [Result<(), Refusal>; 2] {
    match numbers.below(12) {
        0..=2 => {
            let data = numbers.text(MAX_DATA);
            [row.write_data(&data), model.write(data.as_bytes())]
        }
        3 => {
            let (data, width) = (numbers.text(MAX_DATA), numbers.below(40));
            [write!(row, "{data:>width$}|{width:03}"), model.write(format!("{data:>width$}|{width:03}").as_bytes())]
        }
        4 | 5 => {
            let label = numbers.label();
            [row.push_label(&label), model.op(FormatOp::PushLabel(&label))]
        }
        6 => [row.pop_label(), model.op(FormatOp::PopLabel)],
        7 => {
            let sequence = numbers.label();
            [row.raw(sequence.as_bytes()), model.op(FormatOp::RawEscapeSequence(sequence.as_bytes()))]
        }
        8 => [row.append(other), model.append(other)],
        9 => {
            let (label, data) = (numbers.label(), numbers.text(MAX_DATA));
            [row.write_labeled(&label, &data), model.labeled(&label, |to| to.write(data.as_bytes()))]
        }
        10 => {
            let (label, fails) = (numbers.label(), numbers.below(2) == 0);
            let end = || if fails { Err(Refusal::Other(99)) } else { Ok(()) };
            let adding = row.labeled(&label, |row| row.append(other).and_then(|()| end()));
            [adding, model.labeled(&label, |to| to.append(other).and_then(|()| end()))]
        }
        // A layout call in between: its result takes the place of the recording, and its room stays.
        _ => {
            let (content, fill) = (row.clone(), FormatRecorder::with_data(".").unwrap());
            let width = text_width(content.data()) + numbers.below(50);
            let done = write_padded_end(row, &content, &fill, width);
            let copied = model.add(|to, _| lent::write_padded_end(content.view(), fill.view(), width as u32, to));
            [done, copied]
        }
    }
}

#[test]
fn as_the_proved_calls() {
    let mut numbers = Numbers(0x9E37_79B9_7F4A_7C15);
    let (mut done, mut over, mut shapes) = (0, 0, 0);
    for round in 0..60 {
        let (mut row, mut model) = (FormatRecorder::new(), Lent::new());
        let mut other = FormatRecorder::with_data("木 ").unwrap();
        other.labeled("grade", |cell| cell.write_data("FAS").and_then(|()| cell.raw(b"\x1B["))).unwrap();
        // Some start with nearly as many entries as there may be.
        for _ in 0..if round % 4 == 0 { MAX_ENTRIES - numbers.below(30) } else { 0 } {
            row.pop_label().unwrap();
        }
        model.append(&row).unwrap();
        for _ in 0..40 {
            let [got, wanted] = step(&mut numbers, &mut row, &mut model, &other);
            assert_eq!(got, wanted);
            let (ours, theirs) = (row.view(), model.view());
            assert!(ours.data == theirs.data && ours.entries == theirs.entries && ours.text == theirs.text);
            match got {
                Ok(()) => done += 1,
                Err(Refusal::EntryShape) => shapes += 1,
                Err(_) => over += 1,
            }
            if numbers.below(30) == 0 {
                row.clear();
                model.used = Used::default();
                assert!(row.is_empty());
            }
        }
    }
    assert!(done > 500 && over > 100 && shapes > 5, "{done} done, {over} over a limit, {shapes} empty sequences");
}

/// Whatever filled the buffers before: results, what was taken back, and other recordings that were appended.
#[test]
fn equal_labels_once() {
    let mut row = FormatRecorder::new();
    for (label, text) in [("x", "x"), ("yz", "xyz"), ("x", "xyz"), ("", "xyz"), ("z", "xyzz"), ("yz", "xyzz"), ("", "xyzz")] {
        row.push_label(label).unwrap();
        assert_eq!(row.view().text, text.as_bytes());
    }
    row.raw(b"x").unwrap();
    let starts: Vec<_> = row.view().entries.chunks(4).map(|entry| entry[2]).collect();
    assert_eq!((&starts[..], row.view().text), (&[0, 1, 0, 3, 3, 1, 3, 4][..], &b"xyzzx"[..]));

    // Taken back: a label of it is stored anew, the others are still there.
    let failed = row.labeled("new", |row| row.push_label("newer").and_then(|()| row.push_label("x")).and(Err(Refusal::Other(99))));
    assert_eq!((failed, row.view().text), (Err(Refusal::Other(99)), &b"xyzzx"[..]));
    for (label, text) in [("yz", "xyzzx"), ("newer", "xyzzxnewer"), ("new", "xyzzxnewernew")] {
        row.push_label(label).unwrap();
        assert_eq!(row.view().text, text.as_bytes());
    }

    // Appended, and not appended for its last entry: 4,096 bytes are left, and a raw sequence has one more.
    let mut other = FormatRecorder::new();
    for label in ["z", "a", "z", "newest"] {
        other.push_label(label).unwrap();
    }
    row.append(&other).unwrap();
    assert_eq!(row.view().text, b"xyzzxnewernewanewest");
    row.raw(&vec![b'R'; MAX_TEXT - 4096 - row.view().text.len()]).unwrap();
    let before = row.view().text.to_vec();
    other.push_label("b").unwrap();
    other.raw(&[b'S'; 4096]).unwrap();
    assert_eq!((row.append(&other), row.view().text), (Err(Refusal::ResultOverLimit), &before[..]));
    row.push_label("b").unwrap();
    assert_eq!(row.view().text, [&before[..], b"b"].concat());

    // A result in its place, another one with other labels, and nothing.
    for label in ["result", "b"] {
        let mut content = FormatRecorder::with_data("ab").unwrap();
        content.write_labeled(label, "c").unwrap();
        content.replay(&mut row).unwrap();
        row.push_label("b").unwrap();
        row.push_label(label).unwrap();
        let wanted = if label == "b" { "b" } else { "resultb" };
        assert_eq!(row.view().text, wanted.as_bytes());
    }
    row.clear();
    row.push_label("b").unwrap();
    assert_eq!((row.view().text, row.clone().push_label("b")), (&b"b"[..], Ok(())));
}

/// With the text full a label that is there can be pushed, up to the limit of entries, and no other.
#[test]
fn pushed_though_the_text_is_full() {
    let mut row = FormatRecorder::new();
    row.push_label("x").unwrap();
    row.raw(&vec![b'R'; MAX_TEXT - 1]).unwrap();
    assert_eq!((row.push_label("y"), row.raw(b"x")), (Err(Refusal::ResultOverLimit), Err(Refusal::ResultOverLimit)));
    for _ in 2..MAX_ENTRIES {
        row.push_label("x").unwrap();
    }
    assert_eq!((row.push_label("x"), row.view().text.len()), (Err(Refusal::ResultOverLimit), MAX_TEXT));
}

/// Each limit by itself, one beyond it; what is added by several calls is added whole or not at all.
#[test]
fn whole_or_not_at_all() {
    let mut row = FormatRecorder::with_data(vec![b'a'; MAX_DATA - 2]).unwrap();
    let before = row.clone();
    assert_eq!(write!(row, "{}{}", "bb", 'c'), Err(Refusal::ResultOverLimit));
    assert_eq!(row.write_labeled("x", "bbb"), Err(Refusal::ResultOverLimit));
    assert_eq!(row.append(&FormatRecorder::with_data("bbb").unwrap()), Err(Refusal::ResultOverLimit));
    assert_eq!(row, before);
    assert_eq!(write!(row, "{}{}", 'b', 'b'), Ok(()));
    assert_eq!(row.data().len(), MAX_DATA);

    let mut row = FormatRecorder::new();
    for _ in 1..MAX_ENTRIES {
        row.pop_label().unwrap();
    }
    // The label fits, its end does not.
    assert_eq!(row.write_labeled("x", "b"), Err(Refusal::ResultOverLimit));
    assert_eq!((row.ops().count(), row.data(), row.view().text), (MAX_ENTRIES - 1, &b""[..], &b""[..]));
    let two = before.clone();
    assert_eq!(row.append(&two), Ok(()));
}

/// A closure that puts something else in place and fails: a recording is left, whatever it is.
#[test]
fn replaced_under_a_label() {
    let mut row = FormatRecorder::with_data("oak ").unwrap();
    row.write_labeled("grade", "FAS").unwrap();
    let longer = "longer data than before";
    for (before, labels, behind) in [
        ("", &[][..], ""),
        ("a", &["x"], ""),
        (longer, &["five!"], ""),
        ("", &["a longer label"], longer),
        ("a", &["x"; 9], "b"),
    ] {
        let mut other = FormatRecorder::with_data(before).unwrap();
        for label in labels {
            other.write_labeled(label, "").unwrap();
        }
        other.write_data(behind).unwrap();
        let mut changed = row.clone();
        let failed = changed.labeled("x", |row| {
            *row = other;
            Err::<(), _>(Refusal::Other(99))
        });
        assert_eq!(failed, Err(Refusal::Other(99)));
        assert_eq!(FormatRecorder::try_from(changed.view()), Ok(changed.clone()));
    }
}

/// The labels that are open over each piece; pops without a label and raw sequences change nothing.
#[test]
fn pieces_with_their_labels() {
    let mut row = FormatRecorder::new();
    row.pop_label().unwrap();
    row.write_data("a").unwrap();
    row.labeled("x", |row| {
        row.write_data("b")?;
        row.raw(b"\x1B[")?;
        row.write_labeled("y", b"\xFF")?;
        row.write_labeled("empty", "")?;
        row.write_data("c")
    })
    .unwrap();
    let spans: Vec<_> = row.spans().map(|span| (span.text(), span.labels.join("."))).collect();
    let wanted = [("a", ""), ("b", "x"), ("\u{FFFD}", "x.y"), ("c", "x")];
    assert!(spans.iter().map(|(text, labels)| (&**text, &**labels)).eq(wanted), "{spans:?}");
    assert_eq!(FormatRecorder::new().spans().count(), 0);
    assert_eq!("oak".parse::<FormatRecorder>(), FormatRecorder::try_from("oak"));
}
