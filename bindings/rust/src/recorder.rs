//! The recorder: data and labels in buffers of its own.
use std::borrow::Cow;
use std::collections::HashMap;
use std::fmt;
use std::io;
use std::ops::Range;
use std::str::FromStr;

use crate::lent::{self, Buffers, Done, Used, View};
use crate::refusal::Refusal;
use crate::{LINE_NUMBERS, MAX_DATA, MAX_ENTRY_NUMBERS, MAX_TEXT};

/// Kinds of entries.
const PUSH_LABEL: u32 = 0;
const POP_LABEL: u32 = 1;
const RAW: u32 = 2;

/// How many numbers an entry has: position, kind, start and length of its text.
const ENTRY_NUMBERS: usize = 4;

/// What an entry of a recording does.
#[derive(Clone, Copy, Debug, PartialEq, Eq, Hash)]
#[non_exhaustive]
pub enum FormatOp<'a> {
    /// Opens a label.
    PushLabel(&'a str),
    /// Closes the last label still open.
    PopLabel,
    /// A sequence that is no part of the data, such as an escape sequence.
    RawEscapeSequence(&'a [u8]),
}

/// A piece of data under the same labels.
#[derive(Clone, Debug, PartialEq, Eq, Hash)]
#[non_exhaustive]
pub struct Span<'a> {
    /// The data, which is not empty.
    pub data: &'a [u8],
    /// The labels that are open, the outermost first.
    pub labels: Vec<&'a str>,
}

impl<'a> Span<'a> {
    /// The data as text, with U+FFFD for what is not UTF-8.
    #[must_use]
    pub fn text(&self) -> Cow<'a, str> {
        String::from_utf8_lossy(self.data)
    }
}

/// The labels of a recording, each with the first push that has it: what a push of an equal one takes its text from. They are read from
/// the entries when a label is pushed, and only those that are not read yet, so that recording takes linear time whatever filled the
/// buffers before.
#[derive(Default)]
struct Labels {
    first: HashMap<Box<[u8]>, First>,
    /// How many entry numbers are read.
    read: usize,
    /// The part of the label pushed last: the same one often comes again.
    last: Option<(usize, usize)>,
}

/// Where a label comes first.
struct First {
    /// The place of the push among the entry numbers.
    entry: usize,
    /// The start of its text.
    start: usize,
}

impl Labels {
    /// The start of the first push with this text.
    #[inline]
    fn start_of(&mut self, label: &[u8], entries: &[u32], text: &[u8]) -> Option<usize> {
        match self.last {
            Some((start, len)) if text[start..start + len] == *label => Some(start),
            _ => self.find(label, entries, text),
        }
    }

    fn find(&mut self, label: &[u8], entries: &[u32], text: &[u8]) -> Option<usize> {
        for (k, entry) in entries[self.read..].chunks_exact(ENTRY_NUMBERS).enumerate() {
            let (start, len) = (entry[2] as usize, entry[3] as usize);
            let part = &text[start..start + len];
            if entry[1] == PUSH_LABEL && !self.first.contains_key(part) {
                self.first.insert(part.into(), First { entry: self.read + ENTRY_NUMBERS * k, start });
            }
        }
        self.read = entries.len();
        self.first.get(label).map(|first| first.start)
    }

    /// The label is pushed: the recording was so long before, and this start was found.
    #[inline]
    fn pushed(&mut self, label: &[u8], before: Used, found: Option<usize>) {
        if found.is_none() {
            self.first.insert(label.into(), First { entry: before.entries, start: before.text });
        }
        self.read = before.entries + ENTRY_NUMBERS;
        self.last = Some((found.unwrap_or(before.text), label.len()));
    }

    /// The recording ends there now.
    fn shorten(&mut self, entries: usize) {
        if self.read > entries {
            self.first.retain(|_, first| first.entry < entries);
            self.read = entries;
            self.last = None;
        }
    }
}

/// Records data, labels and raw sequences, to be laid out and replayed.
///
/// What is added goes to the ends of its own buffers: what they hold is a recording at any time, so only the limits are looked at.
/// The text of a label is stored once: a push of an equal one takes the part of the first (as the library's own call does), and no text.
/// The buffers grow as needed and are kept: a recorder that is used again as the `out` of layout calls allocates nothing. (The
/// original's `maybe_color` is left out, as all painting is.)
///
/// ```
/// use ruszvedok::{FormatOp, FormatRecorder, Refusal};
///
/// let mut row = FormatRecorder::new();
/// write!(row, "oak {} ft ", 12)?;
/// row.write_labeled("grade", "FAS")?;
/// assert_eq!(row.data(), b"oak 12 ft FAS");
/// assert!(row.ops().eq([(10, FormatOp::PushLabel("grade")), (13, FormatOp::PopLabel)]));
/// # Ok::<(), Refusal>(())
/// ```
#[derive(Default)]
pub struct FormatRecorder {
    // Lent in their whole lengths; `used` says how much of each is the recording.
    data: Vec<u8>,
    entries: Vec<u32>,
    text: Vec<u8>,
    used: Used,
    labels: Labels,
    /// Room for the line list of `write_wrapped`.
    lines: Vec<u32>,
}

/// Adding. Each call adds all of what it is given or, if it is refused, nothing.
impl FormatRecorder {
    /// An empty recording.
    #[must_use]
    pub fn new() -> Self {
        Self::default()
    }

    /// A recording of this data, without labels.
    ///
    /// # Errors
    ///
    /// [`Refusal::ResultOverLimit`] over [`MAX_DATA`].
    pub fn with_data(data: impl Into<Vec<u8>>) -> Result<Self, Refusal> {
        let data = data.into();
        let used = Used { data: within(0, data.len(), MAX_DATA)?, ..Used::default() };
        Ok(Self { data, used, ..Self::default() })
    }

    /// Appends data, which may be any bytes.
    ///
    /// # Errors
    ///
    /// [`Refusal::ResultOverLimit`] if the data would be over [`MAX_DATA`].
    #[inline]
    pub fn write_data(&mut self, data: impl AsRef<[u8]>) -> Result<(), Refusal> {
        let data = data.as_ref();
        let end = within(self.used.data, data.len(), MAX_DATA)?;
        self.data.truncate(self.used.data);
        self.data.extend_from_slice(data);
        self.used.data = end;
        Ok(())
    }

    /// Appends data that is formatted: what `write!` calls.
    ///
    /// # Errors
    ///
    /// [`Refusal::ResultOverLimit`] if the data would be over [`MAX_DATA`].
    ///
    /// # Panics
    ///
    /// As [`std::format!`]: if a value fails to format itself.
    #[inline]
    pub fn write_fmt(&mut self, data: fmt::Arguments<'_>) -> Result<(), Refusal> {
        if let Some(data) = data.as_str() {
            return self.write_data(data);
        }
        self.data.truncate(self.used.data);
        let mut to = Formatted { data: &mut self.data, refused: false };
        let failed = fmt::write(&mut to, data).is_err();
        if to.refused {
            self.data.truncate(self.used.data);
            return Err(Refusal::ResultOverLimit);
        }
        assert!(!failed, "a value failed to format itself");
        self.used.data = self.data.len();
        Ok(())
    }

    /// Opens a label at the current end of the data. If a label with the same text was opened before, its text is not stored again.
    ///
    /// ```
    /// use ruszvedok::{FormatRecorder, Refusal};
    ///
    /// let mut row = FormatRecorder::new();
    /// for grade in ["FAS", "No. 1", "FAS"] {
    ///     row.write_labeled("grade", grade)?;
    /// }
    /// assert_eq!(row.view().text, b"grade");
    /// # Ok::<(), Refusal>(())
    /// ```
    ///
    /// # Errors
    ///
    /// [`Refusal::ResultOverLimit`] if there would be more than [`MAX_ENTRIES`](crate::MAX_ENTRIES) entries, or their text would be
    /// over [`MAX_TEXT`].
    #[inline]
    pub fn push_label(&mut self, label: &str) -> Result<(), Refusal> {
        self.push_label_at(self.used.data as u32, label.as_bytes())
    }

    /// Closes the last label still open, at the current end of the data.
    ///
    /// # Errors
    ///
    /// [`Refusal::ResultOverLimit`] if there would be more than [`MAX_ENTRIES`](crate::MAX_ENTRIES) entries.
    #[inline]
    pub fn pop_label(&mut self) -> Result<(), Refusal> {
        self.push_entry(self.used.data as u32, POP_LABEL, Some(0), b"")
    }

    /// Appends a raw sequence as one entry at the current end of the data.
    ///
    /// # Errors
    ///
    /// [`Refusal::EntryShape`] if it is empty; [`Refusal::ResultOverLimit`] as in [`push_label`](Self::push_label).
    #[inline]
    pub fn raw(&mut self, sequence: &[u8]) -> Result<(), Refusal> {
        if sequence.is_empty() {
            return Err(Refusal::EntryShape);
        }
        self.push_entry(self.used.data as u32, RAW, None, sequence)
    }

    /// Appends data under a label.
    ///
    /// # Errors
    ///
    /// As [`push_label`](Self::push_label), [`write_data`](Self::write_data) and [`pop_label`](Self::pop_label).
    #[inline]
    pub fn write_labeled(&mut self, label: &str, data: impl AsRef<[u8]>) -> Result<(), Refusal> {
        self.labeled(label, |row| row.write_data(data))
    }

    /// Puts what `add` adds under a label.
    ///
    /// ```
    /// use ruszvedok::{FormatRecorder, Refusal};
    ///
    /// let mut row = FormatRecorder::new();
    /// row.labeled("board", |row| {
    ///     write!(row, "oak {} ft ", 12)?;
    ///     row.write_labeled("grade", "FAS")
    /// })?;
    /// let labels: Vec<_> = row.spans().map(|span| span.labels.join(" ")).collect();
    /// assert_eq!(labels, ["board", "board grade"]);
    /// # Ok::<(), Refusal>(())
    /// ```
    ///
    /// # Errors
    ///
    /// What `add` gives; or as [`push_label`](Self::push_label), for the label or its end. What was added is taken back then.
    #[inline]
    pub fn labeled<E: From<Refusal>>(&mut self, label: &str, add: impl FnOnce(&mut Self) -> Result<(), E>) -> Result<(), E> {
        let before = self.used;
        self.push_label(label)?;
        let added = add(self).and_then(|()| Ok(self.pop_label()?));
        if added.is_err() {
            self.take_back(before);
        }
        added
    }

    /// Appends another recording. Its labels are stored as by [`push_label`](Self::push_label).
    ///
    /// ```
    /// use ruszvedok::{FormatRecorder, Refusal};
    ///
    /// let (mut row, cell) = (FormatRecorder::with_data("oak ")?, FormatRecorder::with_data("FAS")?);
    /// row.labeled("grade", |row| row.append(&cell))?;
    /// assert_eq!(row.data(), b"oak FAS");
    /// # Ok::<(), Refusal>(())
    /// ```
    ///
    /// # Errors
    ///
    /// [`Refusal::ResultOverLimit`] if both together would be over a limit.
    pub fn append(&mut self, other: &Self) -> Result<(), Refusal> {
        let View { data, entries, text } = other.view();
        let before = self.used;
        let end = within(before.data, data.len(), MAX_DATA)?;
        for entry in entries.chunks_exact(ENTRY_NUMBERS) {
            let (position, part) = (before.data as u32 + entry[0], &text[entry[2] as usize..][..entry[3] as usize]);
            let added = match entry[1] {
                PUSH_LABEL => self.push_label_at(position, part),
                POP_LABEL => self.push_entry(position, POP_LABEL, Some(0), b""),
                kind => self.push_entry(position, kind, None, part),
            };
            if added.is_err() {
                self.shorten(before);
                return added;
            }
        }
        self.data.truncate(before.data);
        self.data.extend_from_slice(data);
        self.used.data = end;
        Ok(())
    }

    /// Takes everything out. The buffers are kept.
    pub fn clear(&mut self) {
        self.shorten(Used::default());
    }

    #[inline]
    fn push_label_at(&mut self, position: u32, label: &[u8]) -> Result<(), Refusal> {
        let before = self.used;
        let found = self.labels.start_of(label, &self.entries[..before.entries], &self.text[..before.text]);
        self.push_entry(position, PUSH_LABEL, found, label)?;
        self.labels.pushed(label, before, found);
        Ok(())
    }

    /// One entry. `start`: its text is there already; otherwise it goes to the text's end.
    #[inline]
    fn push_entry(&mut self, position: u32, kind: u32, start: Option<usize>, text: &[u8]) -> Result<(), Refusal> {
        let added = if start.is_some() { &[] } else { text };
        let entries = within(self.used.entries, ENTRY_NUMBERS, MAX_ENTRY_NUMBERS)?;
        let end = within(self.used.text, added.len(), MAX_TEXT)?;
        self.entries.truncate(self.used.entries);
        self.text.truncate(self.used.text);
        self.entries.extend_from_slice(&[position, kind, start.unwrap_or(self.used.text) as u32, text.len() as u32]);
        self.text.extend_from_slice(added);
        self.used = Used { entries, text: end, ..self.used };
        Ok(())
    }

    /// Makes the recording end there.
    fn shorten(&mut self, end: Used) {
        self.labels.shorten(end.entries);
        self.used = end;
    }

    /// Makes the recording as long as it was, unless it was replaced by another one that has no end there.
    fn take_back(&mut self, before: Used) {
        let now = self.used;
        let shorter = before.data > now.data || before.entries > now.entries || before.text > now.text;
        if shorter {
            return;
        }
        // Positions never fall, so the last entry says whether its data is there; a text may lie anywhere.
        let mut left = self.entries[..before.entries].chunks_exact(ENTRY_NUMBERS);
        let position = left.clone().next_back().map_or(0, |entry| entry[0]);
        if position as usize <= before.data && left.all(|entry| (entry[2] + entry[3]) as usize <= before.text) {
            self.shorten(before);
        }
    }
}

/// Reading.
impl FormatRecorder {
    /// Whether it has neither data nor entries.
    #[must_use]
    pub fn is_empty(&self) -> bool {
        self.used.data == 0 && self.used.entries == 0
    }

    /// The data without labels and raw sequences.
    #[must_use]
    pub fn data(&self) -> &[u8] {
        &self.data[..self.used.data]
    }

    /// The recording as its three slices.
    #[must_use]
    pub fn view(&self) -> View<'_> {
        View { data: self.data(), entries: &self.entries[..self.used.entries], text: &self.text[..self.used.text] }
    }

    /// The entries with their positions in the data, which never fall.
    pub fn ops(&self) -> impl Iterator<Item = (usize, FormatOp<'_>)> {
        let View { entries, text, .. } = self.view();
        entries.chunks_exact(ENTRY_NUMBERS).map(move |entry| {
            let part = &text[entry[2] as usize..][..entry[3] as usize];
            let op = match entry[1] {
                // Neither the type nor the library lets another label in.
                PUSH_LABEL => FormatOp::PushLabel(std::str::from_utf8(part).unwrap_or_default()),
                POP_LABEL => FormatOp::PopLabel,
                _ => FormatOp::RawEscapeSequence(part),
            };
            (entry[0] as usize, op)
        })
    }

    /// The data piece by piece, each with the labels that are open, for printing. Raw sequences are left out.
    ///
    /// ```
    /// use ruszvedok::{FormatRecorder, Refusal};
    ///
    /// let mut row = FormatRecorder::with_data("oak ")?;
    /// row.write_labeled("grade", "FAS")?;
    /// let spans: Vec<_> = row.spans().map(|span| (span.text(), span.labels)).collect();
    /// assert_eq!(spans, [("oak ".into(), vec![]), ("FAS".into(), vec!["grade"])]);
    /// # Ok::<(), Refusal>(())
    /// ```
    pub fn spans(&self) -> impl Iterator<Item = Span<'_>> {
        let (mut at, mut labels, mut ops) = (0, vec![], self.ops());
        std::iter::from_fn(move || loop {
            let next = ops.next();
            let end = next.map_or(self.used.data, |(position, _)| position);
            let span = (at < end).then(|| Span { data: &self.data[at..end], labels: labels.clone() });
            at = end;
            match next {
                Some((_, FormatOp::PushLabel(label))) => labels.push(label),
                Some((_, FormatOp::PopLabel)) => drop(labels.pop()),
                Some((_, FormatOp::RawEscapeSequence(_))) => {}
                None => return span,
            }
            if span.is_some() {
                return span;
            }
        })
    }

    /// Copies the recording into `out`, in place of what it held.
    ///
    /// # Errors
    ///
    /// None: a recording is within the limits. (The type is that of the other calls.)
    pub fn replay(&self, out: &mut Self) -> Result<(), Refusal> {
        out.copy(self.view())
    }

    /// Hands the entries to `write_op` and the ranges of data between them to `write_data`, in order; none of the ranges is empty.
    ///
    /// ```
    /// use ruszvedok::{FormatOp, FormatRecorder, Refusal};
    ///
    /// let mut row = FormatRecorder::with_data("oak ")?;
    /// row.write_labeled("grade", "FAS")?;
    /// let mut html = String::new();
    /// row.replay_with(
    ///     &mut html,
    ///     |html, op| {
    ///         match op {
    ///             FormatOp::PushLabel(label) => *html += &format!("<b class='{label}'>"),
    ///             FormatOp::PopLabel => *html += "</b>",
    ///             _ => {}
    ///         }
    ///         Ok(())
    ///     },
    ///     |html, range| Ok(*html += &String::from_utf8_lossy(&row.data()[range])),
    /// )?;
    /// assert_eq!(html, "oak <b class='grade'>FAS</b>");
    /// # Ok::<(), Refusal>(())
    /// ```
    ///
    /// # Errors
    ///
    /// The first that one of the two gives.
    pub fn replay_with<F: ?Sized, E>(
        &self,
        formatter: &mut F,
        mut write_op: impl FnMut(&mut F, FormatOp<'_>) -> Result<(), E>,
        mut write_data: impl FnMut(&mut F, Range<usize>) -> Result<(), E>,
    ) -> Result<(), E> {
        let mut last_pos = 0;
        for (pos, op) in self.ops() {
            if last_pos != pos {
                write_data(formatter, last_pos..pos)?;
                last_pos = pos;
            }
            write_op(formatter, op)?;
        }
        if last_pos != self.used.data {
            write_data(formatter, last_pos..self.used.data)?;
        }
        Ok(())
    }
}

/// Lending the buffers to the library.
impl FormatRecorder {
    fn copy(&mut self, content: View<'_>) -> Result<(), Refusal> {
        self.lend(content.used(), |out, _| lent::replay(content, out)).map(drop)
    }

    /// The line list of the last call that wrote one.
    pub(crate) fn lines(&self, count: usize) -> lent::Lines<'_> {
        lent::Lines::new(&self.lines, count)
    }

    /// Lends the buffers to a call until they are long enough, and takes over what it leaves. `least` is a guess of what it needs.
    pub(crate) fn lend(
        &mut self,
        least: Used,
        mut call: impl FnMut(Buffers<'_>, &mut [u32]) -> Result<Done, Refusal>,
    ) -> Result<usize, Refusal> {
        lengthen(&mut self.data, least.data, MAX_DATA);
        lengthen(&mut self.entries, least.entries, MAX_ENTRY_NUMBERS);
        lengthen(&mut self.text, least.text, MAX_TEXT);
        loop {
            let buffers = Buffers { data: &mut self.data, entries: &mut self.entries, text: &mut self.text };
            let refusal = match call(buffers, &mut self.lines) {
                Ok(done) => {
                    // Other entries: none of them is read.
                    self.labels.shorten(0);
                    self.used = done.used;
                    return Ok(done.number as usize);
                }
                Err(refusal) => refusal,
            };
            let grown = match refusal {
                Refusal::DataBufferTooShort => grow(&mut self.data, MAX_DATA),
                Refusal::EntryBufferTooShort => grow(&mut self.entries, MAX_ENTRY_NUMBERS),
                Refusal::TextBufferTooShort => grow(&mut self.text, MAX_TEXT),
                Refusal::LineListTooShort => {
                    // A guess: a line for 16 bytes.
                    lengthen(&mut self.lines, least.data / 16 * LINE_NUMBERS, MAX_LINE_NUMBERS) || grow(&mut self.lines, MAX_LINE_NUMBERS)
                }
                _ => false,
            };
            if !grown {
                return Err(refusal);
            }
        }
    }
}

/// The most numbers of a line list: a text of n bytes has at most n + 1 lines.
pub(crate) const MAX_LINE_NUMBERS: usize = LINE_NUMBERS * (MAX_DATA + 1);

/// The length with so much more, if that is within the limit.
#[inline]
fn within(used: usize, more: usize, limit: usize) -> Result<usize, Refusal> {
    if more > limit - used {
        return Err(Refusal::ResultOverLimit);
    }
    Ok(used + more)
}

/// Makes a buffer at least this long, and as long as it can be without allocating; false if it is.
pub(crate) fn lengthen<T: Clone + Default>(buffer: &mut Vec<T>, least: usize, limit: usize) -> bool {
    let length = least.max(buffer.capacity()).min(limit);
    let short = buffer.len() < length;
    if short {
        buffer.resize(length, T::default());
    }
    short
}

/// Doubles a buffer up to the limit; false if it is that long. (Refusal 9 comes before 21 to 24, so none of them comes then.)
pub(crate) fn grow<T: Clone + Default>(buffer: &mut Vec<T>, limit: usize) -> bool {
    lengthen(buffer, (2 * buffer.len()).max(16), limit)
}

/// Data that is formatted, up to the limit.
struct Formatted<'a> {
    data: &'a mut Vec<u8>,
    refused: bool,
}

impl fmt::Write for Formatted<'_> {
    #[inline]
    fn write_str(&mut self, piece: &str) -> fmt::Result {
        if within(self.data.len(), piece.len(), MAX_DATA).is_err() {
            self.refused = true;
            return Err(fmt::Error);
        }
        self.data.extend_from_slice(piece.as_bytes());
        Ok(())
    }
}

impl Used {
    /// Room for a content and a second recording.
    pub(crate) fn and(self, other: Self) -> Self {
        Self { data: self.data + other.data, entries: self.entries + other.entries, text: self.text + other.text }
    }
}

impl View<'_> {
    pub(crate) fn used(&self) -> Used {
        Used { data: self.data.len(), entries: self.entries.len(), text: self.text.len() }
    }
}

/// Copies a recording from anywhere, once the library has checked it.
impl TryFrom<View<'_>> for FormatRecorder {
    type Error = Refusal;

    fn try_from(content: View<'_>) -> Result<Self, Refusal> {
        let mut made = Self::new();
        made.copy(content)?;
        Ok(made)
    }
}

/// A text without labels.
impl TryFrom<&str> for FormatRecorder {
    type Error = Refusal;

    fn try_from(text: &str) -> Result<Self, Refusal> {
        Self::with_data(text)
    }
}

/// A text without labels.
impl FromStr for FormatRecorder {
    type Err = Refusal;

    fn from_str(text: &str) -> Result<Self, Refusal> {
        Self::with_data(text)
    }
}

/// Appends data. A refusal comes as an [`io::Error`] that holds it.
impl io::Write for FormatRecorder {
    fn write(&mut self, data: &[u8]) -> io::Result<usize> {
        self.write_data(data)?;
        Ok(data.len())
    }

    fn write_fmt(&mut self, data: fmt::Arguments<'_>) -> io::Result<()> {
        Ok(Self::write_fmt(self, data)?)
    }

    fn flush(&mut self) -> io::Result<()> {
        Ok(())
    }
}

/// Copies what is used of the buffers.
impl Clone for FormatRecorder {
    fn clone(&self) -> Self {
        let View { data, entries, text } = self.view();
        Self { data: data.to_vec(), entries: entries.to_vec(), text: text.to_vec(), used: self.used, ..Self::default() }
    }
}

/// Same data and same entries.
impl PartialEq for FormatRecorder {
    fn eq(&self, other: &Self) -> bool {
        self.data() == other.data() && self.ops().eq(other.ops())
    }
}

impl Eq for FormatRecorder {}

impl fmt::Debug for FormatRecorder {
    fn fmt(&self, f: &mut fmt::Formatter<'_>) -> fmt::Result {
        let data = String::from_utf8_lossy(self.data());
        f.debug_struct("FormatRecorder").field("data", &data).field("ops", &self.ops().collect::<Vec<_>>()).finish()
    }
}
