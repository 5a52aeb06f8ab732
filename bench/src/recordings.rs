//! Recordings that are compared: made at random, with texts that lie anywhere, some of them damaged; and what the library must answer,
//! worked out from the original's result and the sizes alone.
use std::io::Write as _;

use oracle::original::Formatter as _;
use oracle::{Entry, Kind, Lists, Recording};
use ruszvedok::Refusal;
use ruszvedok::lent::{Done, Used, View};

use crate::inputs::{Numbers, damaged};
use crate::room::{LIMITS, Room};

/// What is lent to a call.
pub fn view(lists: &Lists) -> View<'_> {
    View { data: &lists.data, entries: &lists.entries, text: &lists.text }
}

/// A text with that many pushes and pops of labels, evenly apart.
pub fn labelled(data: Vec<u8>, count: usize) -> Recording {
    let entries = (0..count)
        .map(|i| {
            let at = data.len() * i / count;
            match i % 2 {
                0 => Entry { at, kind: Kind::Push, text: b"working_copy"[..4 + i % 8].to_vec() },
                _ => Entry { at, kind: Kind::Pop, text: vec![] },
            }
        })
        .collect();
    Recording { data, entries }
}

/// Data of characters of every width, ill-formed bytes, and in some of it words, spaces and line ends.
pub fn content(numbers: &mut Numbers) -> Vec<u8> {
    let mut made = vec![];
    let few = if numbers.pictures() { "😀\u{301}x 🚚字\n" } else { "木\u{301}x é字\n" };
    // One in fifty is long.
    let (pieces, run) = if numbers.within(0, 49) == 0 { (40, 70) } else { (4, 9) };
    for _ in 0..numbers.within(0, pieces) {
        match numbers.within(0, 3) {
            0 => made.extend(damaged(numbers)),
            1 => (0..numbers.within(0, run)).for_each(|_| made.push(numbers.within(b'a' as u64, b'z' as u64) as u8)),
            2 => (0..numbers.within(1, 3)).for_each(|_| made.push(b" \n \r\n\t"[numbers.within(0, 5) as usize])),
            _ => (0..numbers.within(0, 6)).for_each(|_| made.extend(few.chars().nth(numbers.within(0, 6) as usize).unwrap().to_string().bytes())),
        }
    }
    made
}

/// A recording as the original makes them: any entries at positions that never fall, balanced or not.
pub fn recording(numbers: &mut Numbers, most: u64) -> Recording {
    let data = content(numbers);
    let count = if numbers.within(0, 2) == 0 { 0 } else { numbers.within(0, most) };
    let mut places: Vec<_> = (0..count).map(|_| numbers.within(0, data.len() as u64) as usize).collect();
    places.sort_unstable();
    let mut open = 0;
    let mut entries: Vec<Entry> = vec![];
    for at in places {
        let entry = match numbers.within(0, 5) {
            0..2 => Entry { at, kind: Kind::Push, text: label(numbers) },
            2..4 => Entry { at, kind: Kind::Pop, text: vec![] },
            _ => Entry { at, kind: Kind::Raw, text: (0..numbers.within(1, 5)).map(|_| numbers.next() as u8).collect() },
        };
        match entry.kind {
            Kind::Push => open += 1,
            Kind::Pop => open -= 1,
            Kind::Raw => {}
        }
        entries.push(entry);
    }
    // Half of them are closed.
    if numbers.within(0, 1) == 0 {
        for _ in 0..open.max(0) {
            entries.push(Entry { at: data.len(), kind: Kind::Pop, text: vec![] });
        }
    }
    Recording { data, entries }
}

/// One of a few, so that equal ones come often.
pub fn label(numbers: &mut Numbers) -> Vec<u8> {
    const LABELS: [&str; 6] = ["", "a", "node", "working_copy", "ä木", "\u{301}"];
    LABELS[numbers.within(0, 5) as usize].as_bytes().to_vec()
}

/// The same recording with its texts in any order, with gaps, and parts that are shared.
pub fn scattered(recording: &Recording, numbers: &mut Numbers) -> Lists {
    if numbers.within(0, 2) == 0 {
        return recording.to_lists();
    }
    let mut text: Vec<u8> = (0..numbers.within(0, 3)).map(|_| numbers.next() as u8).collect();
    let mut starts = vec![0; recording.entries.len()];
    let mut order: Vec<_> = (0..recording.entries.len()).collect();
    for i in (1..order.len()).rev() {
        order.swap(i, numbers.within(0, i as u64) as usize);
    }
    for i in order {
        let part = &recording.entries[i].text;
        let found = (0..=text.len()).find(|&k| text[k..].starts_with(part));
        starts[i] = match found {
            Some(k) if numbers.within(0, 1) == 0 => k,
            _ => {
                (0..numbers.within(0, 2)).for_each(|_| text.push(numbers.next() as u8));
                text.extend_from_slice(part);
                text.len() - part.len()
            }
        };
    }
    let entries = recording
        .entries
        .iter()
        .zip(starts)
        .flat_map(|(e, start)| match e.kind {
            Kind::Pop => [e.at as u32, 1, 0, 0],
            _ => [e.at as u32, e.kind as u32, start as u32, e.text.len() as u32],
        })
        .collect();
    Lists { data: recording.data.clone(), entries, text }
}

/// Data, entries or text as long as the limit or one longer; or so the text of a result, with a label that comes three times and is stored once.
pub fn at_a_limit(numbers: &mut Numbers) -> Lists {
    let over = numbers.within(0, 1) as usize;
    match numbers.within(0, 3) {
        0 => Lists { data: b"oak 12 ft".repeat(1 << 17)[..LIMITS.0 + over].to_vec(), ..Lists::default() },
        1 => Lists { data: b"ab".to_vec(), entries: [1, 1, 0, 0].repeat(LIMITS.1 / 4 + over), text: vec![] },
        2 => {
            let half = LIMITS.2 as u32 / 2;
            let entries = [[0, 0, 0, half], [0, 2, 1, half + over as u32], [1, 0, 1, half], [1, 0, 0, half]];
            Lists { data: b"ab".to_vec(), entries: entries.concat(), text: vec![b'x'; half as usize + 2] }
        }
        _ => Lists { data: b"ab".to_vec(), entries: vec![1, 2, 0, LIMITS.2 as u32 - 2], text: vec![0x1B; LIMITS.2 + over] },
    }
}

/// Now and then one number is changed, or one too many or too few; the result may still be a recording.
pub fn maybe_damaged(lists: &mut Lists, numbers: &mut Numbers) {
    if numbers.within(0, 15) != 0 {
        return;
    }
    if lists.entries.is_empty() || numbers.within(0, 7) == 0 {
        lists.entries.push(numbers.within(0, 3) as u32);
        return;
    }
    let at = numbers.within(0, lists.entries.len() as u64 - 1) as usize;
    lists.entries[at] = match numbers.within(0, 4) {
        0 => u32::MAX,
        1 => lists.entries[at].wrapping_add(1),
        2 => lists.entries[at].wrapping_sub(1),
        3 => numbers.within(0, 4) as u32,
        _ => numbers.within(0, lists.text.len() as u64 + 1) as u32,
    };
}

/// Document 01's refusals 1 to 6 of a recording, in its order; 0 for none. Written from the document, not from the library.
pub fn fault(lists: &Lists) -> u64 {
    if lists.data.len() > LIMITS.0 {
        return 1;
    }
    if lists.entries.len() % 4 != 0 || lists.entries.len() > LIMITS.1 {
        return 2;
    }
    if lists.text.len() > LIMITS.2 {
        return 5;
    }
    let mut before = 0;
    for row in lists.entries.chunks(4) {
        let (at, kind, start, len) = (row[0] as usize, row[1], row[2] as usize, row[3] as usize);
        if kind > 2 || kind == 1 && (start, len) != (0, 0) || kind == 2 && len == 0 {
            return 3;
        }
        if at < before || at > lists.data.len() {
            return 4;
        }
        if start + len > lists.text.len() {
            return 5;
        }
        if kind == 0 && std::str::from_utf8(&lists.text[start..start + len]).is_err() {
            return 6;
        }
        before = at;
    }
    0
}

/// How many lines the original makes of a text, and what a line list has of them: first byte, end and width of each.
pub fn listed(data: &[u8], width: usize, break_words: bool) -> (u64, Vec<u32>) {
    let lines = oracle::wrap_bytes(data, width, break_words);
    (lines.len() as u64, lines.into_iter().flat_map(|(start, end, width)| [start as u32, end as u32, width as u32]).collect())
}

/// Where the first push with this label has its part (document 02, Q-8).
fn start_of(lists: &Lists, label: &[u8]) -> Option<u32> {
    let has = |row: &&[u32]| row[1] == 0 && lists.text.get(row[2] as usize..).is_some_and(|rest| rest.get(..row[3] as usize) == Some(label));
    lists.entries.chunks_exact(4).find(has).map(|row| row[2])
}

/// A label to push onto a recording: half of them one that it has, if it has any.
pub fn label_for(content: &Recording, other: Vec<u8>, numbers: &mut Numbers) -> Vec<u8> {
    let labels: Vec<_> = content.entries.iter().filter(|entry| entry.kind == Kind::Push).map(|entry| &entry.text).collect();
    match labels.len() as u64 {
        count @ 1.. if numbers.within(0, 1) == 0 => labels[numbers.within(0, count - 1) as usize].clone(),
        _ => other,
    }
}

/// The refusal of what is added (6 for a label, 3 for a raw sequence) and the lists with it at their ends; `kind`: 0 data, 1 a label, 2 a pop,
/// 3 a raw sequence. Where nothing is refused, the original adds the same, and what it has must be these lists, read back.
pub fn with_added(lists: &Lists, content_fault: u64, content: &Recording, kind: u64, added: &[u8]) -> Result<(u64, Lists), String> {
    let fault = match kind {
        1 if std::str::from_utf8(added).is_err() => 6,
        3 if added.is_empty() => 3,
        _ => 0,
    };
    let mut result = lists.clone();
    let (at, start, len) = (lists.data.len() as u32, lists.text.len() as u32, added.len() as u32);
    let shared = if kind == 1 { start_of(lists, added) } else { None };
    match kind {
        0 => result.data.extend(added),
        1 => result.entries.extend([at, 0, shared.unwrap_or(start), len]),
        2 => result.entries.extend([at, 1, 0, 0]),
        _ => result.entries.extend([at, 2, start, len]),
    }
    if kind == 3 || kind == 1 && shared.is_none() {
        result.text.extend(added);
    }
    if (content_fault, fault) == (0, 0) {
        let mut made = content.to_recorder();
        match kind {
            0 => made.write_all(added).unwrap(),
            1 => made.push_label(std::str::from_utf8(added).unwrap()),
            2 => made.pop_label(),
            _ => made.raw().unwrap().write_all(added).unwrap(),
        }
        let original = Some(Recording::from_recorder(&made));
        if original != Recording::from_lists(&result.data, &result.entries, &result.text) {
            return Err(format!("the original has {original:x?} on {lists:x?}, {added:x?}"));
        }
    }
    Ok((fault, result))
}

/// What a call of the library answers.
pub type Left = Result<Done, Refusal>;

/// The same as five numbers; after a refusal the others are 0.
#[derive(Clone, Copy, Debug, Default, PartialEq, Eq)]
pub struct Answer {
    pub refusal: u64,
    pub data: u64,
    pub entries: u64,
    pub text: u64,
    pub number: u64,
}

impl Answer {
    pub fn used(self) -> Used {
        Used { data: self.data as usize, entries: self.entries as usize, text: self.text as usize }
    }
}

impl From<Left> for Answer {
    fn from(left: Left) -> Self {
        match left {
            Ok(done) => Self {
                refusal: 0,
                data: done.used.data as u64,
                entries: done.used.entries as u64,
                text: done.used.text as u64,
                number: done.number,
            },
            Err(refusal) => Self { refusal: refusal.number(), ..Self::default() },
        }
    }
}

/// What a call must answer and leave: the faults of its inputs in their order, and then the original's result.
pub struct Expected {
    pub faults: Vec<u64>,
    pub result: Lists,
    pub lines: Vec<u32>,
    pub number: u64,
}

impl Expected {
    /// The refusal for these numbers of elements, or the sizes of the result.
    pub fn answer(&self, room: (usize, usize, usize, usize)) -> Answer {
        let sizes = (self.result.data.len(), self.result.entries.len(), self.result.text.len());
        let over = sizes.0 > LIMITS.0 || sizes.1 > LIMITS.1 || sizes.2 > LIMITS.2;
        let tests = [(over, 9), (room.0 < sizes.0, 21), (room.1 < sizes.1, 22), (room.2 < sizes.2, 23), (room.3 < self.lines.len(), 24)];
        let due = self.faults.iter().copied().chain(tests.iter().filter(|t| t.0).map(|t| t.1)).find(|n| *n != 0);
        match due {
            Some(refusal) => Answer { refusal, ..Answer::default() },
            None => Answer { refusal: 0, data: sizes.0 as u64, entries: sizes.1 as u64, text: sizes.2 as u64, number: self.number },
        }
    }

    /// Room that is exactly enough, one short in one place, or more than enough.
    pub fn room(&self, numbers: &mut Numbers) -> (usize, usize, usize, usize) {
        let mut sizes = [self.result.data.len(), self.result.entries.len(), self.result.text.len(), self.lines.len()];
        match numbers.within(0, 4) {
            0 => {}
            1 => {
                let i = numbers.within(0, 3) as usize;
                sizes[i] = sizes[i].saturating_sub(1);
            }
            _ => sizes.iter_mut().for_each(|n| *n += numbers.within(0, 9) as usize),
        }
        (sizes[0], sizes[1], sizes[2], sizes[3])
    }

    /// Room for one element more than is needed.
    pub fn enough(&self) -> (usize, usize, usize, usize) {
        (self.result.data.len() + 1, self.result.entries.len() + 1, self.result.text.len() + 1, self.lines.len() + 1)
    }

    /// Whether answer and buffers are as they must be: the result, with what lies beyond untouched; after a refusal all of it untouched.
    pub fn check(&self, got: Answer, room: &Room, lines: &[u32]) -> Result<(), String> {
        let want = self.answer((room.data.len(), room.entries.len(), room.text.len(), lines.len()));
        if got != want {
            return Err(format!("answer {got:?} instead of {want:?}"));
        }
        let done = want.refusal == 0;
        let none = Lists::default();
        let result = if done { &self.result } else { &none };
        let listed: &[u32] = if done { &self.lines } else { &[] };
        part("data", &result.data, &room.data, 0xA5)?;
        part("entries", &result.entries, &room.entries, 0xA5A5_A5A5)?;
        part("text", &result.text, &room.text, 0xA5)?;
        part("lines", listed, lines, 0xA5A5_A5A5)
    }
}

fn part<T: PartialEq + Copy + std::fmt::Debug>(name: &str, want: &[T], got: &[T], beyond: T) -> Result<(), String> {
    if &got[..want.len()] != want {
        return Err(format!("{name} {:x?} instead of {want:x?}", &got[..want.len()]));
    }
    match got[want.len()..].iter().position(|x| *x != beyond) {
        Some(i) => Err(format!("{name} written at {}, beyond the result", want.len() + i)),
        None => Ok(()),
    }
}
