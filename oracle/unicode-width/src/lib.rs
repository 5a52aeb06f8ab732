//! Stand-in for the crate `unicode-width`: the nineteen ranges of document 01, "Characters and widths", and behind them the two of
//! document 02's Q-5, which overlap none of these.
//! Width 0 or 2 inside a range, 1 everywhere else; the width of a text is the sum over its characters.
#![no_std]

/// First and last code point of a range, and its width.
pub const RANGES: [(u32, u32, usize); 21] = [
    (0x0000, 0x001F, 0),
    (0x007F, 0x009F, 0),
    (0x0300, 0x036F, 0),
    (0x200B, 0x200F, 0),
    (0x20D0, 0x20F0, 0),
    (0xFE00, 0xFE0F, 0),
    (0xFE20, 0xFE2F, 0),
    (0x1100, 0x115F, 2),
    (0x2E80, 0x303E, 2),
    (0x3041, 0x33FF, 2),
    (0x3400, 0x4DBF, 2),
    (0x4E00, 0xA4CF, 2),
    (0xAC00, 0xD7A3, 2),
    (0xF900, 0xFAFF, 2),
    (0xFE30, 0xFE6F, 2),
    (0xFF00, 0xFF60, 2),
    (0xFFE0, 0xFFE6, 2),
    (0x20000, 0x2FFFD, 2),
    (0x30000, 0x3FFFD, 2),
    (0x1F600, 0x1F64F, 2),
    (0x1F680, 0x1F6C5, 2),
];

/// The width by a search through the list.
#[inline]
pub fn width_by_table(c: char) -> usize {
    let code = c as u32;
    RANGES.iter().find(|(first, last, _)| (*first..=*last).contains(&code)).map_or(1, |(_, _, width)| *width)
}

/// The same width as the compiler arranges the comparisons.
#[inline]
pub fn width_by_match(c: char) -> usize {
    match c as u32 {
        0x0000..=0x001F | 0x007F..=0x009F | 0x0300..=0x036F | 0x200B..=0x200F | 0x20D0..=0x20F0 | 0xFE00..=0xFE0F | 0xFE20..=0xFE2F => 0,
        0x1100..=0x115F | 0x2E80..=0x303E | 0x3041..=0x33FF | 0x3400..=0x4DBF | 0x4E00..=0xA4CF | 0xAC00..=0xD7A3 | 0xF900..=0xFAFF
        | 0xFE30..=0xFE6F | 0xFF00..=0xFF60 | 0xFFE0..=0xFFE6 | 0x20000..=0x2FFFD | 0x30000..=0x3FFFD | 0x1F600..=0x1F64F | 0x1F680..=0x1F6C5 => 2,
        _ => 1,
    }
}

pub trait UnicodeWidthChar {
    fn width(self) -> Option<usize>;
    fn width_cjk(self) -> Option<usize>;
}

impl UnicodeWidthChar for char {
    #[inline]
    fn width(self) -> Option<usize> {
        Some(if cfg!(feature = "width-table") { width_by_table(self) } else { width_by_match(self) })
    }

    #[inline]
    fn width_cjk(self) -> Option<usize> {
        self.width()
    }
}

pub trait UnicodeWidthStr {
    fn width(&self) -> usize;
    fn width_cjk(&self) -> usize;
}

impl UnicodeWidthStr for str {
    #[inline]
    fn width(&self) -> usize {
        self.chars().map(|c| c.width().unwrap_or(0)).sum()
    }

    #[inline]
    fn width_cjk(&self) -> usize {
        self.width()
    }
}

#[cfg(test)]
mod tests {
    use super::*;

    #[test]
    fn both_searches_agree() {
        for c in '\0'..=char::MAX {
            assert_eq!(width_by_table(c), width_by_match(c), "{:x}", c as u32);
        }
    }
}
