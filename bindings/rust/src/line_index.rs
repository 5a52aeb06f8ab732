//! A line index beside the data of a recording.
use std::ops::Range;

use crate::lent::{self, Done, LineColumn};
use crate::recorder::{grow, lengthen, FormatRecorder};
use crate::refusal::Refusal;
use crate::MAX_DATA;

/// Where the lines of a recording's data start: at 0, and after each 0A, which belongs to the line that it ends. Lines, and the bytes of a
/// line, are counted from 0.
///
/// It is kept beside the recording and holds nothing of it: after an append it is [extended](Self::extend), after any other change of the
/// data [built](Self::build) anew. Each call holds it against the data that it is given, so one that is of other data never answers.
///
/// ```
/// use ruszvedok::{FormatRecorder, LineIndex, Refusal};
///
/// let mut rows = FormatRecorder::with_data("oak 12 ft\nfir")?;
/// let mut index = LineIndex::build(&rows)?;
/// rows.write_labeled("grade", " FAS\n")?;
/// assert_eq!(index.line_at(&rows, 1), Err(Refusal::LineIndex));
/// index.extend(&rows)?;
/// assert_eq!(index.starts(), [0, 10, 18]);
/// assert_eq!(&rows.data()[index.line_at(&rows, 1)?], b"fir FAS");
/// let at = index.place_of(&rows, 14)?;
/// assert_eq!((at.line, at.column), (1, 4));
/// assert_eq!(index.line_at(&rows, 3), Err(Refusal::NoSuchPlace));
/// # Ok::<(), Refusal>(())
/// ```
#[derive(Clone, Debug, PartialEq, Eq)]
pub struct LineIndex {
    starts: Vec<u32>,
    /// The length of the data that it is of.
    data_len: usize,
}

/// The most lines: data of n bytes has at most n + 1.
const MAX_LINES: usize = MAX_DATA + 1;

impl LineIndex {
    /// The index of no data: one line, which is empty.
    #[must_use]
    pub fn new() -> Self {
        Self { starts: vec![0], data_len: 0 }
    }

    /// The index of a recording's data.
    ///
    /// # Errors
    ///
    /// None: a recording is within the limits. (The type is that of the other calls.)
    pub fn build(content: &FormatRecorder) -> Result<Self, Refusal> {
        let mut index = Self::new();
        index.lend(content, MAX_LINES, |starts| lent::build_line_index(content.view(), starts))?;
        Ok(index)
    }

    /// Makes it the index of all the data, after an append.
    ///
    /// # Errors
    ///
    /// [`Refusal::LineIndex`] if it is not the index of the first bytes of this data, as many as it was made for; it is then as it was.
    pub fn extend(&mut self, content: &FormatRecorder) -> Result<(), Refusal> {
        let (used, earlier) = (self.starts.len(), self.data_len);
        // At most one line more for each byte that was appended. So a list of this length is not too short.
        let most = used + content.data().len().saturating_sub(earlier);
        self.lend(content, most, |starts| lent::extend_line_index(content.view(), earlier, starts, used))
    }

    /// Line `n`: from its first byte to its 0A, or to the data's end.
    ///
    /// # Errors
    ///
    /// [`Refusal::LineIndex`] if it is not the index of this data, then [`Refusal::NoSuchPlace`] if there are not so many lines.
    pub fn line_at(&self, content: &FormatRecorder, n: usize) -> Result<Range<usize>, Refusal> {
        lent::line_at(content.view(), &self.starts, n)
    }

    /// The line and the byte column of an offset, which may be the data length.
    ///
    /// # Errors
    ///
    /// [`Refusal::LineIndex`] if it is not the index of this data, then [`Refusal::NoSuchPlace`] if the offset is beyond the data.
    pub fn place_of(&self, content: &FormatRecorder, offset: usize) -> Result<LineColumn, Refusal> {
        lent::place_of(content.view(), &self.starts, offset)
    }

    /// The first byte of each line.
    #[must_use]
    pub fn starts(&self) -> &[u32] {
        &self.starts
    }

    /// How many lines there are, at least one.
    #[must_use]
    pub fn line_count(&self) -> usize {
        self.starts.len()
    }

    /// Lends the list to a call until it is long enough, up to `most` numbers, and takes over what it leaves.
    fn lend(&mut self, content: &FormatRecorder, most: usize, mut call: impl FnMut(&mut [u32]) -> Result<Done, Refusal>) -> Result<(), Refusal> {
        let used = self.starts.len();
        // A guess: a line for 32 bytes.
        lengthen(&mut self.starts, content.data().len() / 32 + 8, most);
        let done = loop {
            match call(&mut self.starts) {
                Err(Refusal::LineIndex) if grow(&mut self.starts, most) => {}
                answer => break answer,
            }
        };
        self.starts.truncate(done.map_or(used, |done| done.number as usize));
        self.data_len = done.map_or(self.data_len, |_| content.data().len());
        done.map(drop)
    }
}

/// The index of no data.
impl Default for LineIndex {
    fn default() -> Self {
        Self::new()
    }
}
