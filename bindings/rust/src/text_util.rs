//! The layout calls and the calls on plain texts, with the original's names and order of parameters. `write_unindented`,
//! `write_tabs_expanded` and the two readers, `write_for_office` and `write_for_floor`, are the library's own.
//!
//! What a call leaves TAKES THE PLACE of what `out` held; the original appends. After a refusal `out` holds what it held.
//!
//! # Errors
//!
//! Of all refusals these can come: [`Refusal::ResultOverLimit`], [`Refusal::ReplacementRange`] (`write_replaced`),
//! [`Refusal::PrefixNewline`] and [`Refusal::PrefixMissing`] (`write_unindented`), [`Refusal::TabStop`] (`write_tabs_expanded`),
//! [`Refusal::ViewLabel`] and [`Refusal::ContentUnbalanced`] (the two readers) and, for texts that are no recordings,
//! [`Refusal::DataTooLong`].
use std::borrow::Cow;

use crate::lent::{self, Done, Lines, Replacement};
use crate::recorder::{grow, FormatRecorder, MAX_LINE_NUMBERS};
use crate::refusal::Refusal;
use crate::{LINE_NUMBERS, MAX_DATA};

/// A width as the library takes it. No text within the limits is wider than `u32::MAX`, so a larger number does the same.
pub(crate) fn columns(width: usize) -> u32 {
    width.try_into().unwrap_or(u32::MAX)
}

/// A layout call over a content and a second recording.
macro_rules! with_second {
    ($out:ident, $call:ident, $content:ident, $second:ident $(, $width:expr)?) => {{
        let (content, second) = ($content.view(), $second.view());
        $out.lend(content.used().and(second.used()), |out, _| lent::$call(content, second, $($width,)? out))
    }};
}

/// Writes the content truncated to `max_width` by removing leading characters, the ellipsis before it. Returns the width kept.
///
/// ```
/// use ruszvedok::{write_truncated_start, FormatRecorder, Refusal};
///
/// let (row, ellipsis) = (FormatRecorder::with_data("spruce")?, FormatRecorder::with_data("..")?);
/// let mut out = FormatRecorder::new();
/// assert_eq!(write_truncated_start(&mut out, &row, &ellipsis, 4)?, 4);
/// assert_eq!(out.data(), b"..ce");
/// # Ok::<(), Refusal>(())
/// ```
///
/// # Errors
///
/// [`Refusal::ResultOverLimit`] if the result would be over a limit.
pub fn write_truncated_start(
    out: &mut FormatRecorder,
    recorded_content: &FormatRecorder,
    recorded_ellipsis: &FormatRecorder,
    max_width: usize,
) -> Result<usize, Refusal> {
    with_second!(out, write_truncated_start, recorded_content, recorded_ellipsis, columns(max_width))
}

/// Writes the content truncated to `max_width` by removing trailing characters, the ellipsis behind it. Returns the width kept.
///
/// ```
/// use ruszvedok::{write_truncated_end, FormatRecorder, Refusal};
///
/// let (row, ellipsis) = (FormatRecorder::with_data("spruce")?, FormatRecorder::with_data("..")?);
/// let mut out = FormatRecorder::new();
/// assert_eq!(write_truncated_end(&mut out, &row, &ellipsis, 4)?, 4);
/// assert_eq!(out.data(), b"sp..");
/// # Ok::<(), Refusal>(())
/// ```
///
/// # Errors
///
/// [`Refusal::ResultOverLimit`] if the result would be over a limit.
pub fn write_truncated_end(
    out: &mut FormatRecorder,
    recorded_content: &FormatRecorder,
    recorded_ellipsis: &FormatRecorder,
    max_width: usize,
) -> Result<usize, Refusal> {
    with_second!(out, write_truncated_end, recorded_content, recorded_ellipsis, columns(max_width))
}

/// Writes the content padded to `min_width` by leading fill characters. The fill should be a character of width 1.
///
/// ```
/// use ruszvedok::{write_padded_start, FormatRecorder, Refusal};
///
/// let (row, fill) = (FormatRecorder::with_data("fir")?, FormatRecorder::with_data(".")?);
/// let mut out = FormatRecorder::new();
/// write_padded_start(&mut out, &row, &fill, 6)?;
/// assert_eq!(out.data(), b"...fir");
/// # Ok::<(), Refusal>(())
/// ```
///
/// # Errors
///
/// [`Refusal::ResultOverLimit`] if the result would be over a limit.
pub fn write_padded_start(
    out: &mut FormatRecorder,
    recorded_content: &FormatRecorder,
    recorded_fill_char: &FormatRecorder,
    min_width: usize,
) -> Result<(), Refusal> {
    with_second!(out, write_padded_start, recorded_content, recorded_fill_char, columns(min_width)).map(drop)
}

/// Writes the content padded to `min_width` by trailing fill characters. The fill should be a character of width 1.
///
/// ```
/// use ruszvedok::{write_padded_end, FormatRecorder, Refusal};
///
/// let (row, fill) = (FormatRecorder::with_data("fir")?, FormatRecorder::with_data(".")?);
/// let mut out = FormatRecorder::new();
/// write_padded_end(&mut out, &row, &fill, 6)?;
/// assert_eq!(out.data(), b"fir...");
/// # Ok::<(), Refusal>(())
/// ```
///
/// # Errors
///
/// [`Refusal::ResultOverLimit`] if the result would be over a limit.
pub fn write_padded_end(
    out: &mut FormatRecorder,
    recorded_content: &FormatRecorder,
    recorded_fill_char: &FormatRecorder,
    min_width: usize,
) -> Result<(), Refusal> {
    with_second!(out, write_padded_end, recorded_content, recorded_fill_char, columns(min_width)).map(drop)
}

/// Writes the content padded to `min_width` on both sides, on the left by half of the fill, rounded down.
///
/// ```
/// use ruszvedok::{write_padded_centered, FormatRecorder, Refusal};
///
/// let (row, fill) = (FormatRecorder::with_data("fir")?, FormatRecorder::with_data(".")?);
/// let mut out = FormatRecorder::new();
/// write_padded_centered(&mut out, &row, &fill, 6)?;
/// assert_eq!(out.data(), b".fir..");
/// # Ok::<(), Refusal>(())
/// ```
///
/// # Errors
///
/// [`Refusal::ResultOverLimit`] if the result would be over a limit.
pub fn write_padded_centered(
    out: &mut FormatRecorder,
    recorded_content: &FormatRecorder,
    recorded_fill_char: &FormatRecorder,
    min_width: usize,
) -> Result<(), Refusal> {
    with_second!(out, write_padded_centered, recorded_content, recorded_fill_char, columns(min_width)).map(drop)
}

/// Writes the content with the prefix before every line that is not empty, under the labels of that line's first byte. (The original
/// takes a closure that writes the prefix.)
///
/// ```
/// use ruszvedok::{write_indented, FormatRecorder, Refusal};
///
/// let (rows, prefix) = (FormatRecorder::with_data("a\n\nb")?, FormatRecorder::with_data("> ")?);
/// let mut out = FormatRecorder::new();
/// write_indented(&mut out, &rows, &prefix)?;
/// assert_eq!(out.data(), b"> a\n\n> b");
/// # Ok::<(), Refusal>(())
/// ```
///
/// # Errors
///
/// [`Refusal::ResultOverLimit`] if the result would be over a limit.
pub fn write_indented(
    out: &mut FormatRecorder,
    recorded_content: &FormatRecorder,
    recorded_prefix: &FormatRecorder,
) -> Result<(), Refusal> {
    with_second!(out, write_indented, recorded_content, recorded_prefix).map(drop)
}

/// Writes the content with the prefix's bytes taken out of every line that is not empty; each such line has to begin with them. All
/// entries of the content stay, those among these bytes before what is left of the line; so entries that [`write_indented`] put in with a
/// prefix stay too. The prefix's entries play no part. (The original has no such function.)
///
/// ```
/// use ruszvedok::{write_unindented, FormatRecorder, Refusal};
///
/// let (rows, prefix) = (FormatRecorder::with_data("> a\n\n> b")?, FormatRecorder::with_data("> ")?);
/// let mut out = FormatRecorder::new();
/// write_unindented(&mut out, &rows, &prefix)?;
/// assert_eq!(out.data(), b"a\n\nb");
/// assert_eq!(write_unindented(&mut FormatRecorder::new(), &out, &prefix), Err(Refusal::PrefixMissing));
/// # Ok::<(), Refusal>(())
/// ```
///
/// # Errors
///
/// [`Refusal::PrefixNewline`] if the prefix has a 0A, [`Refusal::PrefixMissing`] if a line that is not empty does not begin with it.
pub fn write_unindented(
    out: &mut FormatRecorder,
    recorded_content: &FormatRecorder,
    recorded_prefix: &FormatRecorder,
) -> Result<(), Refusal> {
    let (content, prefix) = (recorded_content.view(), recorded_prefix.view());
    out.lend(content.used(), |out, _| lent::write_unindented(content, prefix, out)).map(drop)
}

/// Writes the content wrapped at the width, and inside of words that are wider if `break_words`. Returns its lines, as stretches of
/// the content's data with their widths.
///
/// ```
/// use ruszvedok::{write_wrapped, FormatRecorder, Refusal};
///
/// let row = FormatRecorder::with_data("oak 12 ft b")?;
/// let mut out = FormatRecorder::new();
/// let lines: Vec<_> = write_wrapped(&mut out, &row, 5, false)?.map(|line| (line.range(), line.width)).collect();
/// assert_eq!(lines, [(0..3, 3), (4..9, 5), (10..11, 1)]);
/// assert_eq!(out.data(), b"oak\n12 ft\nb");
/// # Ok::<(), Refusal>(())
/// ```
///
/// # Errors
///
/// [`Refusal::ResultOverLimit`] if the result would be over a limit.
pub fn write_wrapped<'a>(
    out: &'a mut FormatRecorder,
    recorded_content: &FormatRecorder,
    width: usize,
    break_words: bool,
) -> Result<Lines<'a>, Refusal> {
    let content = recorded_content.view();
    let count = out.lend(content.used(), |out, lines| lent::write_wrapped(content, columns(width), break_words, out, lines))?;
    Ok(out.lines(count))
}

/// Writes the content with each record's stretch replaced by its part of `text`, under the labels of the byte at its start. Records are
/// in order and do not overlap. (The original takes a closure that writes each replacement.)
///
/// ```
/// use ruszvedok::lent::Replacement;
/// use ruszvedok::{write_replaced, FormatRecorder, Refusal};
///
/// let row = FormatRecorder::with_data("abcdef")?;
/// let records = [Replacement { start: 1, end: 3, from: 0, to: 1 }, Replacement { start: 6, end: 6, from: 1, to: 2 }];
/// let mut out = FormatRecorder::new();
/// write_replaced(&mut out, &row, &records, b"XY")?;
/// assert_eq!(out.data(), b"aXdefY");
/// # Ok::<(), Refusal>(())
/// ```
///
/// # Errors
///
/// [`Refusal::ResultOverLimit`] if the result would be over a limit, [`Refusal::ReplacementRange`] if a record is out of
/// order or out of range.
pub fn write_replaced(
    out: &mut FormatRecorder,
    recorded_content: &FormatRecorder,
    replacements: &[Replacement],
    text: &[u8],
) -> Result<(), Refusal> {
    let content = recorded_content.view();
    let mut least = content.used();
    least.data += text.len();
    out.lend(least, |out, _| lent::write_replaced(content, replacements, text, out)).map(drop)
}

/// Writes the content with each tab (byte 09) replaced by spaces up to the next stop, at least one, under the tab's labels. Stops are
/// `stop` columns apart; a tab's column is the width since the last 0A, with the spaces of tabs before it. (The original has no such
/// function.)
///
/// ```
/// use ruszvedok::{write_tabs_expanded, FormatRecorder, Refusal};
///
/// let rows = FormatRecorder::with_data("oak\t12 ft\tFAS\n木材\t9 ft\tNo. 1")?;
/// let mut out = FormatRecorder::new();
/// write_tabs_expanded(&mut out, &rows, 8)?;
/// assert_eq!(out.data(), "oak     12 ft   FAS\n木材    9 ft    No. 1".as_bytes());
/// assert_eq!(write_tabs_expanded(&mut out, &rows, 65), Err(Refusal::TabStop));
/// # Ok::<(), Refusal>(())
/// ```
///
/// # Errors
///
/// [`Refusal::TabStop`] if `stop` is 0 or over 64, [`Refusal::ResultOverLimit`] if the result would be over a limit.
pub fn write_tabs_expanded(out: &mut FormatRecorder, recorded_content: &FormatRecorder, stop: usize) -> Result<(), Refusal> {
    let content = recorded_content.view();
    // A stop over 32 bits becomes the largest, which is refused too.
    out.lend(content.used(), |out, _| lent::write_tabs_expanded(content, columns(stop), out)).map(drop)
}

/// Writes what the office reads: all of the content. The label is the one that hides from the floor, see [`write_for_floor`]. (The
/// original has no such function.)
///
/// # Errors
///
/// [`Refusal::ViewLabel`] if the label is empty, [`Refusal::ContentUnbalanced`] if a label of the content is not closed or a pop has none
/// to close.
pub fn write_for_office(out: &mut FormatRecorder, recorded_content: &FormatRecorder, label: &str) -> Result<(), Refusal> {
    let content = recorded_content.view();
    out.lend(content.used(), |out, _| lent::write_for_office(content, label.as_bytes(), out)).map(drop)
}

/// Writes what the floor reads: instead of each character with any byte under the label as many `*` as it is wide, under the labels of
/// its first byte; 0A stays. Raw sequences placed under the label are dropped, and an entry inside a character so replaced comes after
/// its stars. What is under the label shows in nothing else than these columns. (The original has no such function.)
///
/// ```
/// use ruszvedok::{write_for_floor, write_for_office, FormatRecorder, Refusal};
///
/// let mut row = FormatRecorder::with_data("oak 12 ft ")?;
/// row.write_labeled("price", "7.50")?;
/// let mut out = FormatRecorder::new();
/// write_for_office(&mut out, &row, "price")?;
/// assert_eq!(out.data(), b"oak 12 ft 7.50");
/// write_for_floor(&mut out, &row, "price")?;
/// assert_eq!(out.data(), b"oak 12 ft ****");
/// assert_eq!(write_for_floor(&mut out, &row, ""), Err(Refusal::ViewLabel));
/// # Ok::<(), Refusal>(())
/// ```
///
/// # Errors
///
/// [`Refusal::ViewLabel`] if the label is empty, [`Refusal::ContentUnbalanced`] if a label of the content is not closed or a pop has none
/// to close.
pub fn write_for_floor(out: &mut FormatRecorder, recorded_content: &FormatRecorder, label: &str) -> Result<(), Refusal> {
    let content = recorded_content.view();
    out.lend(content.used(), |out, _| lent::write_for_floor(content, label.as_bytes(), out)).map(drop)
}

/// Wraps lines at the given width: the lines without their newlines, each a part of `text`, with its width. (The original gives no
/// widths.)
///
/// ```
/// # use ruszvedok::{wrap_bytes, Refusal};
/// assert_eq!(wrap_bytes(b"oak 12 ft b", 5, false)?, [(&b"oak"[..], 3), (b"12 ft", 5), (b"b", 1)]);
/// # Ok::<(), Refusal>(())
/// ```
///
/// # Errors
///
/// [`Refusal::DataTooLong`] if the text is over [`MAX_DATA`].
pub fn wrap_bytes(text: &[u8], width: usize, break_words: bool) -> Result<Vec<(&[u8], usize)>, Refusal> {
    let mut list = vec![0; (text.len() / 16 + 8) * LINE_NUMBERS];
    loop {
        match lent::wrap_bytes(text, columns(width), break_words, &mut list) {
            Ok(done) => return Ok(Lines::new(&list, done.number as usize).map(|line| (&text[line.range()], line.width)).collect()),
            Err(Refusal::LineListTooShort) if grow(&mut list, MAX_LINE_NUMBERS) => {}
            Err(refusal) => return Err(refusal),
        }
    }
}

/// A text of one of the calls on plain texts, in a buffer of the most bytes that it can take.
fn plain(most: usize, call: impl FnOnce(&mut [u8]) -> Result<Done, Refusal>) -> Result<(String, usize), Refusal> {
    let mut out = vec![0; most.min(MAX_DATA)];
    let done = call(&mut out)?;
    out.truncate(done.used.data);
    Ok((String::from_utf8(out).expect("cut between characters"), done.number as usize))
}

/// The text itself if it is the result.
fn borrowed<'a>(text: &'a str, (made, width): (String, usize)) -> (Cow<'a, str>, usize) {
    if made == text {
        (Cow::Borrowed(text), width)
    } else {
        (Cow::Owned(made), width)
    }
}

/// Shortens `text` to `max_width` by removing leading characters; the ellipsis is added if it gets truncated. Returns the width too.
///
/// ```
/// # use ruszvedok::{elide_start, Refusal};
/// assert_eq!(elide_start("spruce", "..", 4)?, ("..ce".into(), 4));
/// # Ok::<(), Refusal>(())
/// ```
///
/// # Errors
///
/// [`Refusal::DataTooLong`] if a text is over [`MAX_DATA`], [`Refusal::ResultOverLimit`] if the result would be.
pub fn elide_start<'a>(text: &'a str, ellipsis: &str, max_width: usize) -> Result<(Cow<'a, str>, usize), Refusal> {
    let call = |out: &mut [u8]| lent::elide_start(text.as_bytes(), ellipsis.as_bytes(), columns(max_width), out);
    Ok(borrowed(text, plain(text.len() + ellipsis.len(), call)?))
}

/// Shortens `text` to `max_width` by removing trailing characters; the ellipsis is added if it gets truncated. Returns the width too.
///
/// ```
/// # use ruszvedok::{elide_end, Refusal};
/// assert_eq!(elide_end("spruce", "..", 4)?, ("sp..".into(), 4));
/// # Ok::<(), Refusal>(())
/// ```
///
/// # Errors
///
/// [`Refusal::DataTooLong`] if a text is over [`MAX_DATA`], [`Refusal::ResultOverLimit`] if the result would be.
pub fn elide_end<'a>(text: &'a str, ellipsis: &str, max_width: usize) -> Result<(Cow<'a, str>, usize), Refusal> {
    let call = |out: &mut [u8]| lent::elide_end(text.as_bytes(), ellipsis.as_bytes(), columns(max_width), out);
    Ok(borrowed(text, plain(text.len() + ellipsis.len(), call)?))
}

/// Appends a newline unless the text is empty or ends in one.
///
/// ```
/// # use ruszvedok::{complete_newline, Refusal};
/// assert_eq!(complete_newline("oak")?, "oak\n");
/// # Ok::<(), Refusal>(())
/// ```
///
/// # Errors
///
/// [`Refusal::DataTooLong`] if a text is over [`MAX_DATA`], [`Refusal::ResultOverLimit`] if the result would be.
pub fn complete_newline(s: impl AsRef<str>) -> Result<String, Refusal> {
    let s = s.as_ref();
    Ok(plain(s.len() + 1, |out| lent::complete_newline(s.as_bytes(), out))?.0)
}

/// Removes leading characters of width 0.
///
/// ```
/// # use ruszvedok::trim_start_zero_width_chars;
/// assert_eq!(trim_start_zero_width_chars("\u{301}a\u{301}"), "a\u{301}");
/// ```
#[must_use]
pub fn trim_start_zero_width_chars(text: &str) -> &str {
    &text[lent::zero_width_len(text.as_bytes())..]
}

/// The width of a text of any bytes: the sum over its characters.
///
/// ```
/// # use ruszvedok::text_width;
/// assert_eq!(text_width("木x".as_bytes()), 3);
/// ```
#[must_use]
pub fn text_width(text: &[u8]) -> usize {
    lent::text_width(text) as usize
}
