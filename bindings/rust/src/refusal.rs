//! Why a call is refused.
use std::error::Error;
use std::fmt;
use std::io;

// ---- written by tools/declarations from the library's sources ----

/// Why a call was refused; the numbers are those of documents 01 and 02, and from 61 on the library's own.
#[derive(Clone, Copy, Debug, PartialEq, Eq, Hash)]
#[non_exhaustive]
pub enum Refusal {
    /// 1: data over its limit.
    DataTooLong,
    /// 2: entry numbers that are not four an entry, or over their limit.
    EntryNumbers,
    /// 3: an unknown kind, a pop with a text, a raw sequence without one.
    EntryShape,
    /// 4: a position that falls, or beyond the data.
    EntryPosition,
    /// 5: text over its limit, or a part that passes its end.
    TextPart,
    /// 6: a label that is not well-formed UTF-8.
    LabelIllFormed,
    /// 7: a plain text or ellipsis that is not well-formed UTF-8.
    TextIllFormed,
    /// 8: a replacement record out of order or out of range.
    ReplacementRange,
    /// 9: a result over a limit of the recording.
    ResultOverLimit,
    /// 10: a length above its buffer.
    LengthOverBuffer,
    /// 21: the data buffer is too short for the result.
    DataBufferTooShort,
    /// 22: the entry buffer is too short for the result.
    EntryBufferTooShort,
    /// 23: the text buffer is too short for the result.
    TextBufferTooShort,
    /// 24: the line list, or the list of cells, is too short for the result.
    LineListTooShort,
    /// 31: a tab stop that is 0 or over 64.
    TabStop,
    /// 32: a prefix to be taken off that has a 0A.
    PrefixNewline,
    /// 33: a line that is not empty and does not begin with the prefix to be taken off.
    PrefixMissing,
    /// 34: a reader's label that is empty or not well-formed UTF-8.
    ViewLabel,
    /// 35: a content whose labels are not balanced.
    ContentUnbalanced,
    /// 36: a line index that is too short for its numbers, or not that of the data.
    LineIndex,
    /// 37: a line or an offset that is not there.
    NoSuchPlace,
    /// 38: part ends of over 64 cells, that fall, or of which the last is not the data's length.
    CellEnds,
    /// 39: columns of a tally sheet outside their limits, or too many lines.
    TallyShape,
    /// 40: a cell of a tally sheet that is not well-formed UTF-8, or has a control character.
    TallyCell,
    /// 41: a line of a tally sheet with another number of cells than columns, or whose cell of boards is no number of them.
    TallyLine,
    /// 61: two sets of buffers that differ in a length.
    SetsDiffer,
    /// 62: calls that are not eight numbers each, an unknown kind, a range not within its pool.
    CallNumbers,
    /// 63: the list of answers is too short, at two numbers a call.
    AnswerListTooShort,
    /// A number that this version of the crate does not know.
    Other(u64),
}

impl Refusal {
    /// All known ones, by their numbers.
    pub const ALL: &'static [Self] = &[
        Self::DataTooLong,
        Self::EntryNumbers,
        Self::EntryShape,
        Self::EntryPosition,
        Self::TextPart,
        Self::LabelIllFormed,
        Self::TextIllFormed,
        Self::ReplacementRange,
        Self::ResultOverLimit,
        Self::LengthOverBuffer,
        Self::DataBufferTooShort,
        Self::EntryBufferTooShort,
        Self::TextBufferTooShort,
        Self::LineListTooShort,
        Self::TabStop,
        Self::PrefixNewline,
        Self::PrefixMissing,
        Self::ViewLabel,
        Self::ContentUnbalanced,
        Self::LineIndex,
        Self::NoSuchPlace,
        Self::CellEnds,
        Self::TallyShape,
        Self::TallyCell,
        Self::TallyLine,
        Self::SetsDiffer,
        Self::CallNumbers,
        Self::AnswerListTooShort,
    ];

    /// Its number.
    #[must_use]
    pub const fn number(self) -> u64 {
        match self {
            Self::DataTooLong => 1,
            Self::EntryNumbers => 2,
            Self::EntryShape => 3,
            Self::EntryPosition => 4,
            Self::TextPart => 5,
            Self::LabelIllFormed => 6,
            Self::TextIllFormed => 7,
            Self::ReplacementRange => 8,
            Self::ResultOverLimit => 9,
            Self::LengthOverBuffer => 10,
            Self::DataBufferTooShort => 21,
            Self::EntryBufferTooShort => 22,
            Self::TextBufferTooShort => 23,
            Self::LineListTooShort => 24,
            Self::TabStop => 31,
            Self::PrefixNewline => 32,
            Self::PrefixMissing => 33,
            Self::ViewLabel => 34,
            Self::ContentUnbalanced => 35,
            Self::LineIndex => 36,
            Self::NoSuchPlace => 37,
            Self::CellEnds => 38,
            Self::TallyShape => 39,
            Self::TallyCell => 40,
            Self::TallyLine => 41,
            Self::SetsDiffer => 61,
            Self::CallNumbers => 62,
            Self::AnswerListTooShort => 63,
            Self::Other(number) => number,
        }
    }

    /// Why, in words.
    #[must_use]
    pub const fn reason(self) -> &'static str {
        match self {
            Self::DataTooLong => "data over its limit",
            Self::EntryNumbers => "entry numbers that are not four an entry, or over their limit",
            Self::EntryShape => "an unknown kind, a pop with a text, a raw sequence without one",
            Self::EntryPosition => "a position that falls, or beyond the data",
            Self::TextPart => "text over its limit, or a part that passes its end",
            Self::LabelIllFormed => "a label that is not well-formed UTF-8",
            Self::TextIllFormed => "a plain text or ellipsis that is not well-formed UTF-8",
            Self::ReplacementRange => "a replacement record out of order or out of range",
            Self::ResultOverLimit => "a result over a limit of the recording",
            Self::LengthOverBuffer => "a length above its buffer",
            Self::DataBufferTooShort => "the data buffer is too short for the result",
            Self::EntryBufferTooShort => "the entry buffer is too short for the result",
            Self::TextBufferTooShort => "the text buffer is too short for the result",
            Self::LineListTooShort => "the line list, or the list of cells, is too short for the result",
            Self::TabStop => "a tab stop that is 0 or over 64",
            Self::PrefixNewline => "a prefix to be taken off that has a 0A",
            Self::PrefixMissing => "a line that is not empty and does not begin with the prefix to be taken off",
            Self::ViewLabel => "a reader's label that is empty or not well-formed UTF-8",
            Self::ContentUnbalanced => "a content whose labels are not balanced",
            Self::LineIndex => "a line index that is too short for its numbers, or not that of the data",
            Self::NoSuchPlace => "a line or an offset that is not there",
            Self::CellEnds => "part ends of over 64 cells, that fall, or of which the last is not the data's length",
            Self::TallyShape => "columns of a tally sheet outside their limits, or too many lines",
            Self::TallyCell => "a cell of a tally sheet that is not well-formed UTF-8, or has a control character",
            Self::TallyLine => "a line of a tally sheet with another number of cells than columns, or whose cell of boards is no number of them",
            Self::SetsDiffer => "two sets of buffers that differ in a length",
            Self::CallNumbers => "calls that are not eight numbers each, an unknown kind, a range not within its pool",
            Self::AnswerListTooShort => "the list of answers is too short, at two numbers a call",
            Self::Other(_) => "unknown reason",
        }
    }
}

// ---- end of the written part ----

impl Refusal {
    /// The refusal with this number; 0 is none.
    #[must_use]
    pub fn from_number(number: u64) -> Option<Self> {
        let known = Self::ALL.iter().copied().find(|refusal| refusal.number() == number);
        (number != 0).then(|| known.unwrap_or(Self::Other(number)))
    }
}

impl fmt::Display for Refusal {
    fn fmt(&self, f: &mut fmt::Formatter<'_>) -> fmt::Result {
        write!(f, "{} (refusal {})", self.reason(), self.number())
    }
}

impl Error for Refusal {}

impl From<Refusal> for io::Error {
    fn from(refusal: Refusal) -> Self {
        Self::new(io::ErrorKind::InvalidInput, refusal)
    }
}
