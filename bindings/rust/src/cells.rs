//! A whole page of cells, cut in one call.
use crate::lent::{self, Cell, Cells, CELL_NUMBERS};
use crate::refusal::Refusal;
use crate::text_util::columns;
use crate::MAX_DATA;

/// Cells that were each truncated at their end to one width, with one ellipsis: their bytes joined, and where each of them is and how wide.
///
/// Each is what [`write_truncated_end`](crate::write_truncated_end) makes of it alone, without labels; one call of the library cuts up to
/// [`MAX_CELLS`](crate::MAX_CELLS) of them. Any bytes will do, for the ellipsis too.
///
/// ```
/// use ruszvedok::{Refusal, TruncatedCells};
///
/// let page = TruncatedCells::cut(["oak", "spruce", "木材 9 ft"], "..", 5)?;
/// assert_eq!(page.data(), "oakspr..木..".as_bytes());
/// let texts: Vec<_> = page.texts().collect();
/// assert_eq!(texts, [(&b"oak"[..], 3), (b"spr..", 5), ("木..".as_bytes(), 4)]);
/// assert_eq!(page.get(1).map(|cell| (cell.range(), cell.width)), Some((3..8, 5)));
/// assert_eq!(TruncatedCells::cut(["oak"; 65], "..", 5), Err(Refusal::CellEnds));
/// # Ok::<(), Refusal>(())
/// ```
#[derive(Clone, Debug, Default, PartialEq, Eq)]
pub struct TruncatedCells {
    data: Vec<u8>,
    /// Two numbers a cell, as the library lists them.
    list: Vec<u32>,
}

impl TruncatedCells {
    /// Truncates each cell to `max_width` by removing trailing characters, the ellipsis behind it.
    ///
    /// # Errors
    ///
    /// [`Refusal::DataTooLong`] if the cells together, or the ellipsis, are over [`MAX_DATA`], [`Refusal::CellEnds`] if there are more than
    /// [`MAX_CELLS`](crate::MAX_CELLS), [`Refusal::ResultOverLimit`] if the results together would be over [`MAX_DATA`].
    pub fn cut<C: AsRef<[u8]>>(cells: impl IntoIterator<Item = C>, ellipsis: impl AsRef<[u8]>, max_width: usize) -> Result<Self, Refusal> {
        let (mut content, mut ends) = (vec![], vec![]);
        for cell in cells {
            content.extend_from_slice(cell.as_ref());
            // Over 32 bits it is over the limit too, and refused for that before the ends are read.
            ends.push(content.len() as u32);
        }
        Self::cut_parts(&content, &ends, ellipsis, max_width)
    }

    /// The same for cells that lie one behind the other in `content`: each runs from the end before it, the first one from 0, up to its own.
    ///
    /// ```
    /// # use ruszvedok::{Refusal, TruncatedCells};
    /// let page = TruncatedCells::cut_parts(b"oakspruce", &[3, 9], "..", 5)?;
    /// assert_eq!(page, TruncatedCells::cut(["oak", "spruce"], "..", 5)?);
    /// # Ok::<(), Refusal>(())
    /// ```
    ///
    /// # Errors
    ///
    /// Those of [`cut`](Self::cut), and [`Refusal::CellEnds`] also if an end is before the one before it, or the last (0 without cells) is
    /// not the length of `content`.
    pub fn cut_parts(content: &[u8], ends: &[u32], ellipsis: impl AsRef<[u8]>, max_width: usize) -> Result<Self, Refusal> {
        let ellipsis = ellipsis.as_ref();
        // No result is longer. Where this is not over the limit, the library sees that it has room without measuring first.
        let most = content.len().saturating_add(ends.len().saturating_mul(ellipsis.len())).min(MAX_DATA);
        let (mut data, mut list) = (vec![0; most], vec![0; ends.len() * CELL_NUMBERS]);
        let done = lent::write_truncated_cells(content, ends, ellipsis, columns(max_width), &mut data, &mut list)?;
        data.truncate(done.used.data);
        Ok(Self { data, list })
    }

    /// The bytes of all cells, one behind the other.
    #[must_use]
    pub fn data(&self) -> &[u8] {
        &self.data
    }

    /// How many cells there are.
    #[must_use]
    pub fn len(&self) -> usize {
        self.list.len() / CELL_NUMBERS
    }

    /// Whether there are no cells.
    #[must_use]
    pub fn is_empty(&self) -> bool {
        self.list.is_empty()
    }

    /// Where cell `n`, counted from 0, is in the [data](Self::data), and its width.
    #[must_use]
    pub fn get(&self, n: usize) -> Option<Cell> {
        self.cells().nth(n)
    }

    /// Where each cell is in the [data](Self::data), and its width.
    #[must_use]
    pub fn cells(&self) -> Cells<'_> {
        Cells::new(&self.list, self.len())
    }

    /// The bytes of each cell, and its width.
    #[must_use]
    pub fn texts(&self) -> impl ExactSizeIterator<Item = (&[u8], usize)> {
        self.cells().map(|cell| (&self.data[cell.range()], cell.width))
    }
}
