//! The two Rust files of jj-cli 0.46.0, unchanged, behind calls over plain recordings.
//!
//! `formatter.rs` and `text_util.rs` are included from the folder that build.rs names; nothing of them is copied here. What they
//! import is the real `bstr`, the real first fit of `textwrap`, the stand-in widths (crate `unicode-width` of this folder), and stubs.
//!
//! * At the top of this crate: calls over [`Recording`], for comparing results. Widths in wrapping are document 01's sums.
//! * [`original`]: the functions themselves over `FormatRecorder`, for timing; [`original::real`] has the wrapping calls with the
//!   real `textwrap::core::display_width`, which skips escape sequences.

mod recording;
#[allow(dead_code)]
mod stubs;
mod textwrap_plain;

pub use recording::{Entry, Kind, Lists, Recording};

/// formatter.rs.
#[allow(dead_code, unused, unreachable_code)]
mod formatter {
    use crate::stubs::{crossterm, itertools, jj_lib, serde, toml_edit};

    include!(concat!(env!("RUSZVEDOK_RUST_SRC"), "/formatter.rs"));

    impl FormatRecorder {
        /// The entries, which no public call of the file hands out: position, kind, and label or raw bytes of each.
        pub fn entries(&self) -> impl Iterator<Item = (usize, crate::Kind, &[u8])> {
            self.ops.iter().map(|(at, op)| match op {
                FormatOp::PushLabel(label) => (*at, crate::Kind::Push, label.as_bytes()),
                FormatOp::PopLabel => (*at, crate::Kind::Pop, &[][..]),
                FormatOp::RawEscapeSequence(bytes) => (*at, crate::Kind::Raw, &bytes[..]),
            })
        }
    }
}

/// text_util.rs over a given `textwrap`, its private functions handed on.
macro_rules! text_util {
    ($module:ident, $textwrap:path) => {
        #[allow(dead_code)]
        mod $module {
            use $textwrap as textwrap;

            use crate::stubs::regex;

            include!(concat!(env!("RUSZVEDOK_RUST_SRC"), "/text_util.rs"));

            /// The private functions that the library has under the same names.
            pub mod private {
                pub fn truncate_start_pos_bytes(text: &[u8], max_width: usize) -> (usize, usize) {
                    super::truncate_start_pos_bytes(text, max_width)
                }
                pub fn truncate_end_pos_bytes(text: &[u8], max_width: usize) -> (usize, usize) {
                    super::truncate_end_pos_bytes(text, max_width)
                }
                pub fn count_start_zero_width_chars_bytes(text: &[u8]) -> usize {
                    super::count_start_zero_width_chars_bytes(text)
                }
                pub fn trim_start_zero_width_chars(text: &str) -> &str {
                    super::trim_start_zero_width_chars(text)
                }
            }
        }
    };
}

text_util!(text_util, crate::textwrap_plain);
text_util!(text_util_real, real_textwrap);

/// The functions of the two files themselves.
pub mod original {
    pub use crate::formatter::{FormatRecorder, Formatter};
    pub use crate::text_util::private::*;
    pub use crate::text_util::{
        complete_newline, elide_end, elide_start, wrap_bytes, write_indented, write_padded_centered, write_padded_end,
        write_padded_start, write_replaced, write_truncated_end, write_truncated_start, write_wrapped,
    };

    /// What the layout calls of text_util.rs do to measure a text.
    pub fn text_width(text: &[u8]) -> usize {
        use unicode_width::UnicodeWidthStr as _;
        String::from_utf8_lossy(text).width()
    }

    /// Wrapping with the real `textwrap::core::display_width`.
    pub mod real {
        pub use crate::text_util_real::{wrap_bytes, write_wrapped};
    }
}

use original::FormatRecorder;
pub use original::{
    count_start_zero_width_chars_bytes, text_width, trim_start_zero_width_chars, truncate_end_pos_bytes, truncate_start_pos_bytes,
};

/// Runs a call that writes to a recorder and reads the result back.
fn recorded<T>(call: impl FnOnce(&mut FormatRecorder) -> std::io::Result<T>) -> (Recording, T) {
    let mut out = FormatRecorder::new(false);
    let answer = call(&mut out).expect("a recorder takes everything");
    (Recording::from_recorder(&out), answer)
}

pub fn replay(content: &Recording) -> Recording {
    recorded(|out| content.to_recorder().replay(out)).0
}

pub fn write_truncated_start(content: &Recording, ellipsis: &Recording, max_width: usize) -> (Recording, usize) {
    recorded(|out| original::write_truncated_start(out, &content.to_recorder(), &ellipsis.to_recorder(), max_width))
}

pub fn write_truncated_end(content: &Recording, ellipsis: &Recording, max_width: usize) -> (Recording, usize) {
    recorded(|out| original::write_truncated_end(out, &content.to_recorder(), &ellipsis.to_recorder(), max_width))
}

pub fn write_padded_start(content: &Recording, fill: &Recording, min_width: usize) -> Recording {
    recorded(|out| original::write_padded_start(out, &content.to_recorder(), &fill.to_recorder(), min_width)).0
}

pub fn write_padded_end(content: &Recording, fill: &Recording, min_width: usize) -> Recording {
    recorded(|out| original::write_padded_end(out, &content.to_recorder(), &fill.to_recorder(), min_width)).0
}

pub fn write_padded_centered(content: &Recording, fill: &Recording, min_width: usize) -> Recording {
    recorded(|out| original::write_padded_centered(out, &content.to_recorder(), &fill.to_recorder(), min_width)).0
}

/// The prefix is replayed before every line that is not empty.
pub fn write_indented(content: &Recording, prefix: &Recording) -> Recording {
    let prefix = prefix.to_recorder();
    recorded(|out| original::write_indented(out, &content.to_recorder(), |out| prefix.replay(out))).0
}

/// First byte, end and width of each line. The original gives the lines as parts of the text; a line's width is worked out of its bytes
/// alone, with the stand-in widths.
pub fn wrap_bytes(text: &[u8], width: usize, break_words: bool) -> Vec<(usize, usize, usize)> {
    let lines = original::wrap_bytes(text, width, break_words);
    lines
        .into_iter()
        .map(|line| {
            let start = line.as_ptr() as usize - text.as_ptr() as usize;
            (start, start + line.len(), text_width(line))
        })
        .collect()
}

pub fn write_wrapped(content: &Recording, width: usize, break_words: bool) -> Recording {
    recorded(|out| original::write_wrapped(out, &content.to_recorder(), width, break_words)).0
}

/// A replacement: the bytes from `start` to `end` of the data by the bytes from `from` to `to` of the replacement text.
#[derive(Clone, Copy, Debug, PartialEq, Eq, Hash)]
#[repr(C)]
pub struct Replacement {
    pub start: u32,
    pub end: u32,
    pub from: u32,
    pub to: u32,
}

/// `write_replaced` with a closure that writes the replacement's bytes.
pub fn write_replaced(content: &Recording, replacements: &[Replacement], text: &[u8]) -> Recording {
    let ranges: Vec<_> = replacements.iter().map(|r| r.start as usize..r.end as usize).collect();
    recorded(|out| {
        original::write_replaced(out, &content.to_recorder(), &ranges, |out, index| {
            let r = replacements[index];
            out.write_all(&text[r.from as usize..r.to as usize])
        })
    })
    .0
}

pub fn complete_newline(text: &str) -> String {
    original::complete_newline(text)
}

pub fn elide_start(text: &str, ellipsis: &str, max_width: usize) -> (String, usize) {
    let (text, width) = original::elide_start(text, ellipsis, max_width);
    (text.into_owned(), width)
}

pub fn elide_end(text: &str, ellipsis: &str, max_width: usize) -> (String, usize) {
    let (text, width) = original::elide_end(text, ellipsis, max_width);
    (text.into_owned(), width)
}
