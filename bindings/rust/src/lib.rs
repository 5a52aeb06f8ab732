//! Recorded text and its layout: text with labels is cut, padded, indented, wrapped and replaced, its tabs are expanded, an indent is
//! taken off, and the labels stay in step. What is under a label can be hidden from one of two readers. A line index beside the data says
//! where a line is, and in which line a byte. A page of cells is cut in one call, and a tally sheet laid out.
//!
//! The work is done by a library whose every function is proved to meet its contract (`crates/capi` and what is below it). This crate
//! is three layers over its C names, none of which is proved:
//!
//! * the type [`FormatRecorder`] and the functions of [`text_util`], with the names and the order of parameters that jj-cli has;
//!   they own their buffers and lengthen them as needed; [`run_layouts`] makes a list of [`Layout`] calls in one, [`LineIndex`] owns its
//!   list of line starts, and [`TruncatedCells`] the bytes of a page of cells and where each is; [`tally_sheet`] makes a string;
//! * [`lent`]: one safe function for each call, over buffers that the caller lends; nothing is allocated;
//! * `sys`: the declarations.
//!
//! ```
//! use ruszvedok::{write_truncated_end, FormatRecorder, Refusal};
//!
//! let mut row = FormatRecorder::new();
//! row.write_labeled("grade", "spruce")?;
//! let ellipsis = FormatRecorder::with_data("..")?;
//! let mut out = FormatRecorder::new();
//! assert_eq!(write_truncated_end(&mut out, &row, &ellipsis, 4)?, 4);
//! assert_eq!(out.data(), b"sp..");
//! # Ok::<(), Refusal>(())
//! ```
#![deny(missing_docs, unsafe_code, unsafe_op_in_unsafe_fn)]
#![warn(clippy::missing_errors_doc, clippy::missing_panics_doc, clippy::must_use_candidate)]

#[allow(unsafe_code)]
pub mod lent;
mod cells;
mod layouts;
mod line_index;
mod recorder;
mod refusal;
#[allow(missing_docs)]
mod sys;
mod tally;
pub mod text_util;

pub use cells::TruncatedCells;
pub use layouts::{run_layouts, Layout};
pub use lent::{Alignment, Cell, Column, LineColumn};
pub use line_index::LineIndex;
pub use recorder::{FormatOp, FormatRecorder, Span};
pub use refusal::Refusal;
pub use sys::{CELL_NUMBERS, COLUMN_NUMBERS, LINE_NUMBERS};
pub use sys::{MAX_CELLS, MAX_COLUMNS, MAX_COLUMN_WIDTH, MAX_DATA, MAX_ENTRIES, MAX_ENTRY_NUMBERS, MAX_TALLY_LINES, MAX_TEXT};
pub use tally::tally_sheet;
pub use text_util::{
    complete_newline, elide_end, elide_start, text_width, trim_start_zero_width_chars, wrap_bytes, write_for_floor,
    write_for_office, write_indented, write_padded_centered, write_padded_end, write_padded_start, write_replaced,
    write_tabs_expanded, write_truncated_end, write_truncated_start, write_unindented, write_wrapped,
};
