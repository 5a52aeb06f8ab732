//! The edger's tally sheet.
use crate::lent::{self, Column};
use crate::refusal::Refusal;
use crate::{MAX_DATA, MAX_TALLY_LINES};

/// The most bytes of a last row, and a 0A that the input's last line may lack.
const LAST: usize = "4095 268365825\n".len() + 1;

/// The tally sheet of an input: a line of names and lines of values in that order, with commas between the cells. A line ends with `\n`, which
/// the last may lack; an empty input is one empty line.
///
/// Each line is a row of the sheet. Its cells are cut with the ellipsis `~`, filled with spaces to the widths of their columns, and joined by
/// one space, so every row is exactly as wide as the columns and the spaces between them. A last row has the number of value lines and the sum
/// of the first column called `boards`, with one space between; the sum is 0 without such a column.
///
/// ```
/// use ruszvedok::{tally_sheet, Column, Refusal};
///
/// let columns = [Column::start(8), Column::end(6), Column::center(7)];
/// let sheet = tally_sheet("wood,boards,length\noak,12,9 ft\nwhite spruce,7,12 ft\n", &columns)?;
/// assert_eq!(sheet, "wood     boards length \noak          12  9 ft  \nwhite s~      7  12 ft \n2 19\n");
/// assert_eq!(tally_sheet("wood,boards,length\noak,012,9 ft\n", &columns), Err(Refusal::TallyLine));
/// # Ok::<(), Refusal>(())
/// ```
///
/// # Errors
///
/// [`Refusal::DataTooLong`] if the input is over [`MAX_DATA`]. [`Refusal::TallyShape`] if there are no columns or over
/// [`MAX_COLUMNS`](crate::MAX_COLUMNS), if a width is 0 or over [`MAX_COLUMN_WIDTH`](crate::MAX_COLUMN_WIDTH), or if there are over
/// [`MAX_TALLY_LINES`] lines. Then line by line: [`Refusal::TallyLine`] if a line has another number of cells than there are columns,
/// [`Refusal::TallyCell`] if a cell is ill-formed or has a control character, which `\r` is, and [`Refusal::TallyLine`] if the cell of `boards`
/// in a line of values is no decimal whole number up to 65,535 without leading zeros. [`Refusal::ResultOverLimit`] if the sheet would be over
/// [`MAX_DATA`].
pub fn tally_sheet(input: impl AsRef<[u8]>, columns: &[Column]) -> Result<String, Refusal> {
    let input = input.as_ref();
    let mut out = vec![0; most(input, columns)];
    let done = lent::write_tally(input, Column::numbers(columns), &mut out)?;
    out.truncate(done.used.data);
    Ok(text(out))
}

/// Each cell is well-formed, or the call is refused.
fn text(sheet: Vec<u8>) -> String {
    String::from_utf8(sheet).expect("cut between characters")
}

/// No sheet is longer: of a cell all bytes, or some and the ellipsis for others, and spaces up to the width.
fn most(input: &[u8], columns: &[Column]) -> usize {
    let lines = input.iter().filter(|byte| **byte == b'\n').count() + 1;
    let widths = columns.iter().fold(0_usize, |sum, column| sum.saturating_add(column.width as usize));
    input.len().saturating_add(lines.min(MAX_TALLY_LINES).saturating_mul(widths)).saturating_add(LAST).min(MAX_DATA)
}
