//! A list of layout calls, all made in one call of the library.
use crate::lent::{self, Buffers, Call, Kind, Pools, Replacement, Used, View};
use crate::recorder::FormatRecorder;
use crate::refusal::Refusal;
use crate::text_util::columns;

/// A layout call of a list for [`run_layouts`].
#[derive(Clone, Copy, Debug)]
#[non_exhaustive]
pub enum Layout<'a> {
    /// [`write_truncated_start`](crate::write_truncated_start).
    TruncateStart {
        /// The width that it is cut to.
        max_width: usize,
        /// What is written before a content that is cut.
        ellipsis: &'a FormatRecorder,
    },
    /// [`write_truncated_end`](crate::write_truncated_end).
    TruncateEnd {
        /// The width that it is cut to.
        max_width: usize,
        /// What is written behind a content that is cut.
        ellipsis: &'a FormatRecorder,
    },
    /// [`write_padded_start`](crate::write_padded_start).
    PadStart {
        /// The width that it is filled up to.
        min_width: usize,
        /// A character of width 1.
        fill: &'a FormatRecorder,
    },
    /// [`write_padded_end`](crate::write_padded_end).
    PadEnd {
        /// The width that it is filled up to.
        min_width: usize,
        /// A character of width 1.
        fill: &'a FormatRecorder,
    },
    /// [`write_padded_centered`](crate::write_padded_centered).
    PadCentered {
        /// The width that it is filled up to.
        min_width: usize,
        /// A character of width 1.
        fill: &'a FormatRecorder,
    },
    /// [`write_indented`](crate::write_indented).
    Indent {
        /// What is written before every line that is not empty.
        prefix: &'a FormatRecorder,
    },
    /// [`write_wrapped`](crate::write_wrapped).
    Wrap {
        /// The width of a line.
        width: usize,
        /// Whether words that are wider are broken.
        break_words: bool,
    },
    /// [`write_replaced`](crate::write_replaced).
    Replace {
        /// In order, without overlaps.
        records: &'a [Replacement],
        /// The text that their `from` and `to` are of.
        text: &'a [u8],
    },
    /// [`write_tabs_expanded`](crate::write_tabs_expanded).
    ExpandTabs {
        /// How many columns the stops are apart, 1 to 64.
        stop: usize,
    },
    /// [`write_unindented`](crate::write_unindented).
    Unindent {
        /// What every line that is not empty begins with, and what is taken out there.
        prefix: &'a FormatRecorder,
    },
}

/// Calls as the library takes them, with their pools.
#[derive(Default)]
struct List {
    calls: Vec<Call>,
    bytes: Vec<u8>,
    numbers: Vec<u32>,
    /// What the second recordings and new texts take: a guess of what the results need beyond the content.
    added: Used,
}

/// Puts elements at a pool's end, and says where they are.
fn put<T>(pool: &mut Vec<T>, elements: impl IntoIterator<Item = T>) -> Result<[u32; 2], Refusal> {
    let start = pool.len();
    pool.extend(elements);
    let place = |at: usize| at.try_into().map_err(|_| Refusal::CallNumbers);
    Ok([place(start)?, place(pool.len())?])
}

impl List {
    fn new(layouts: &[Layout<'_>]) -> Result<Self, Refusal> {
        let mut list = Self::default();
        for layout in layouts {
            list.push(layout)?;
        }
        Ok(list)
    }

    fn push(&mut self, layout: &Layout<'_>) -> Result<(), Refusal> {
        let (kind, width, second) = match *layout {
            Layout::TruncateStart { max_width, ellipsis } => (Kind::TruncateStart, max_width, ellipsis.view()),
            Layout::TruncateEnd { max_width, ellipsis } => (Kind::TruncateEnd, max_width, ellipsis.view()),
            Layout::PadStart { min_width, fill } => (Kind::PadStart, min_width, fill.view()),
            Layout::PadEnd { min_width, fill } => (Kind::PadEnd, min_width, fill.view()),
            Layout::PadCentered { min_width, fill } => (Kind::PadCentered, min_width, fill.view()),
            Layout::Indent { prefix } => (Kind::Indent, 0, prefix.view()),
            Layout::Wrap { width, break_words: false } => (Kind::Wrap, width, View::default()),
            Layout::Wrap { width, break_words: true } => (Kind::WrapBreaking, width, View::default()),
            Layout::Replace { text, .. } => (Kind::Replace, 0, View { data: text, ..View::default() }),
            Layout::ExpandTabs { stop } => (Kind::ExpandTabs, stop, View::default()),
            Layout::Unindent { prefix } => (Kind::Unindent, 0, prefix.view()),
        };
        let data = put(&mut self.bytes, second.data.iter().copied())?;
        let entries = match *layout {
            Layout::Replace { records, .. } => {
                put(&mut self.numbers, records.iter().flat_map(|at| [at.start, at.end, at.from, at.to]))?
            }
            _ => put(&mut self.numbers, second.entries.iter().copied())?,
        };
        let text = put(&mut self.bytes, second.text.iter().copied())?;
        self.calls.push(Call { kind, width: columns(width), data, entries, text });
        self.added = self.added.and(second.used());
        Ok(())
    }
}

/// Makes all calls of a list in one call of the library, the first on the content, each other one on what the last call not refused
/// left. Returns what each of them answers: its number (a width, a count of lines, or 0) or its refusal. The result, which is the content
/// if every call is refused, takes the place of what `out` held.
///
/// ```
/// use ruszvedok::{run_layouts, FormatRecorder, Layout, Refusal};
///
/// let row = FormatRecorder::with_data("spruce, 12 ft, FAS")?;
/// let (dots, dot) = (FormatRecorder::with_data("..")?, FormatRecorder::with_data(".")?);
/// let mut out = FormatRecorder::new();
/// let layouts = [
///     Layout::TruncateEnd { max_width: 8, ellipsis: &dots },
///     Layout::PadEnd { min_width: usize::MAX, fill: &dot },
///     Layout::PadCentered { min_width: 12, fill: &dot },
/// ];
/// let answers = run_layouts(&mut out, &row, &layouts)?;
/// assert_eq!(answers, [Ok(8), Err(Refusal::ResultOverLimit), Ok(0)]);
/// assert_eq!(out.data(), b"..spruce....");
/// # Ok::<(), Refusal>(())
/// ```
///
/// The library runs a list in buffers of one length for all its calls. If one of them finds a buffer too short, it grows, and the list is
/// run again from the content on: so none of the answers is a refusal 21 to 24, and each is that of the function for this call alone. The
/// second set of buffers that a list needs is made for each call of this function.
///
/// # Errors
///
/// [`Refusal::CallNumbers`] if the second recordings, or the records and new texts, of all calls together have more elements than a 32-bit
/// number can say; `out` holds what it held then. A call that is refused is no error here, but one of the answers.
pub fn run_layouts(
    out: &mut FormatRecorder,
    recorded_content: &FormatRecorder,
    layouts: &[Layout<'_>],
) -> Result<Vec<Result<usize, Refusal>>, Refusal> {
    let list = List::new(layouts)?;
    let pools = Pools { bytes: &list.bytes, numbers: &list.numbers };
    let content = recorded_content.view();
    let mut answers = vec![[0; 2]; layouts.len()];
    let (mut data, mut entries, mut text) = (vec![], vec![], vec![]);
    let run = |first: Buffers<'_>, lines: &mut [u32]| {
        data.resize(first.data.len(), 0);
        entries.resize(first.entries.len(), 0);
        text.resize(first.text.len(), 0);
        first.data[..content.data.len()].copy_from_slice(content.data);
        first.entries[..content.entries.len()].copy_from_slice(content.entries);
        first.text[..content.text.len()].copy_from_slice(content.text);
        let other = Buffers { data: &mut data, entries: &mut entries, text: &mut text };
        let done = lent::run_calls(&list.calls, pools, content.used(), first, other, lines, &mut answers)?;
        answers.iter().find_map(|[refusal, _]| Refusal::from_number(*refusal).filter(is_of_a_buffer)).map_or(Ok(done), Err)
    };
    // No refusal comes here: 9 comes before 21 to 24, so buffers as long as the limits are long enough.
    out.lend(content.used().and(list.added), run).inspect_err(|_| out.clear())?;
    Ok(answers.iter().map(|[refusal, number]| Refusal::from_number(*refusal).map_or(Ok(*number as usize), Err)).collect())
}

/// Whether a buffer that is longer would do.
fn is_of_a_buffer(refusal: &Refusal) -> bool {
    matches!(
        refusal,
        Refusal::DataBufferTooShort | Refusal::EntryBufferTooShort | Refusal::TextBufferTooShort | Refusal::LineListTooShort
    )
}
