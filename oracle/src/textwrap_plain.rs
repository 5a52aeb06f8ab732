//! `textwrap` as document 01 takes it: its first fit, and the width of a text as the sum over its characters.
//! The real `display_width` differs from that sum only by what it skips after the byte 1B (hexadecimal).
pub use real_textwrap::wrap_algorithms;

pub mod core {
    pub use real_textwrap::core::Fragment;

    #[inline]
    pub fn display_width(text: &str) -> usize {
        unicode_width::UnicodeWidthStr::width(text)
    }
}
