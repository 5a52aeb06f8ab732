//! The texts that are measured, made from a fixed seed.

/// What the bytes of a text are.
#[derive(Clone, Copy, PartialEq, Eq)]
pub enum Kind {
    /// Words of letters and digits with single spaces.
    Ascii,
    /// The same with words of CJK and other characters of two to four bytes and of each width.
    Mixed,
    /// Any bytes.
    Random,
    /// Words of letters and digits, and as many of pictures (document 02, Q-5), which have four bytes and width 2.
    Pictures,
    /// Words of letters and digits, and as many of accented Latin letters, which have two bytes and width 1.
    Latin,
}

pub const KINDS: [(Kind, &str); 3] = [(Kind::Ascii, "ASCII"), (Kind::Mixed, "mixed CJK"), (Kind::Random, "random bytes")];

/// For tally sheets, whose cells are well-formed.
pub const SHEET_KINDS: [(Kind, &str); 3] = [(Kind::Ascii, "ASCII"), (Kind::Mixed, "mixed CJK"), (Kind::Latin, "accented Latin")];

/// Taken instead of these if asked for.
pub const PICTURES: [(Kind, &str); 1] = [(Kind::Pictures, "pictures")];

pub type Size = (usize, &'static str);

/// For the calls on texts.
pub const SIZES: [Size; 4] = [(6, "6 B"), (80, "80 B"), (64 << 10, "64 KiB"), (1 << 20, "1 MiB")];

/// For the calls on recordings: results keep within the limit of 1 MiB.
pub const ROWS: [Size; 3] = [(80, "80 B"), (64 << 10, "64 KiB"), (1_000_000, "1 MB")];
pub const LONG_ROWS: [Size; 2] = [(64 << 10, "64 KiB"), (1_000_000, "1 MB")];
pub const SHORT_ROWS: [Size; 2] = [(80, "80 B"), (64 << 10, "64 KiB")];
/// Pages of 8 and of 64 cells: one of 64 is as many texts in a row.
pub const PAGES_OF_8: [Size; 3] = [(80, "8 x 10 B"), (640, "8 x 80 B"), (8000, "8 x 1000 B")];
pub const PAGES_OF_64: [Size; 3] = [(640, "64 x 10 B"), (64 * 80, "64 x 80 B"), (64_000, "64 x 1000 B")];
/// Tally sheets of 20 and of 1,000 lines: 4 cells of about 8 or of 200 bytes a line, or 12 of 8.
pub const SHEETS: [Size; 2] = [(20 * 32, "20 lines"), (1000 * 32, "1000 lines")];
pub const LONG_CELLS: [Size; 2] = [(20 * 800, "20 lines"), (1000 * 800, "1000 lines")];
pub const MANY_COLUMNS: [Size; 2] = [(20 * 96, "20 lines"), (1000 * 96, "1000 lines")];
/// For expanding tabs at stops of 8: with a tab in about 18 bytes a result can be longer by two fifths.
pub const TABBED: [Size; 3] = [(80, "80 B"), (64 << 10, "64 KiB"), (700_000, "700 kB")];

/// What short random texts are about: the characters that `damaged` and `recordings::content` make often.
#[derive(Clone, Copy)]
pub enum About {
    /// The edges of document 01's width ranges and of the sequence lengths.
    Ranges,
    /// The edges of the two ranges of pictures (document 02, Q-5).
    Pictures,
    /// Half of the texts are about the ones, half about the others.
    Both,
}

/// Numbers from a seed (xorshift), and what the texts that are made with them are about.
pub struct Numbers {
    state: u64,
    about: About,
}

impl Numbers {
    /// For texts about the edges of document 01's ranges.
    pub fn new(seed: u64) -> Self {
        Self { state: seed | 1, about: About::Ranges }
    }

    pub fn about(self, about: About) -> Self {
        Self { about, ..self }
    }

    pub fn next(&mut self) -> u64 {
        self.state ^= self.state << 13;
        self.state ^= self.state >> 7;
        self.state ^= self.state << 17;
        self.state.wrapping_mul(0x2545_F491_4F6C_DD1D) >> 16
    }

    /// Whether the next text is about pictures. A number is taken for it only where both are possible: the others have the same texts as before there were pictures.
    pub fn pictures(&mut self) -> bool {
        match self.about {
            About::Ranges => false,
            About::Pictures => true,
            About::Both => self.within(0, 1) == 0,
        }
    }

    /// A number from `first` to `last`.
    pub fn within(&mut self, first: u64, last: u64) -> u64 {
        first + self.next() % (last - first + 1)
    }
}

fn letter(numbers: &mut Numbers) -> char {
    const LETTERS: &[u8] = b"abcdefghijklmnopqrstuvwxyzabcdefghijklmnopqrstuvwxyzABCDEFGHIJ0123456789.,-_/()";
    LETTERS[numbers.within(0, LETTERS.len() as u64 - 1) as usize] as char
}

/// Mostly characters of width 2 and three bytes.
fn other_letter(numbers: &mut Numbers) -> char {
    let (first, last) = match numbers.within(0, 99) {
        0..60 => (0x4E00, 0x9FFF),
        60..75 => (0x3041, 0x30FF),
        75..85 => (0xAC00, 0xD7A3),
        85..92 => (0x00C0, 0x017F),
        92..95 => (0x0300, 0x036F),
        95..97 => (0x1F300, 0x1F5FF),
        97..99 => (0xFF01, 0xFF60),
        _ => (0x20000, 0x2A6DF),
    };
    char::from_u32(numbers.within(first, last) as u32).unwrap()
}

/// A face or a truck.
fn picture(numbers: &mut Numbers) -> char {
    let (first, last) = if numbers.within(0, 1) == 0 { (0x1F600, 0x1F64F) } else { (0x1F680, 0x1F6C5) };
    char::from_u32(numbers.within(first, last) as u32).unwrap()
}

fn accented(numbers: &mut Numbers) -> char {
    char::from_u32(numbers.within(0xC0, 0x17F) as u32).unwrap()
}

/// A text of exactly `size` bytes.
pub fn text(kind: Kind, size: usize, numbers: &mut Numbers) -> Vec<u8> {
    if kind == Kind::Random {
        return (0..size).map(|_| numbers.next() as u8).collect();
    }
    let mut made = String::with_capacity(size + 4);
    while made.len() < size {
        let other = kind != Kind::Ascii && numbers.within(0, 1) == 0;
        for _ in 0..numbers.within(1, 9) {
            made.push(match kind {
                Kind::Mixed if other => other_letter(numbers),
                Kind::Pictures if other => picture(numbers),
                Kind::Latin if other => accented(numbers),
                _ => letter(numbers),
            });
        }
        made.push(' ');
    }
    // What goes beyond the size leaves, and letters take the place of a character that was cut.
    while made.len() > size {
        made.pop();
    }
    while made.len() < size {
        made.push(letter(numbers));
    }
    made.into_bytes()
}

/// The texts of one cell of the table.
pub struct Input {
    pub kind: Kind,
    pub size: usize,
    pub texts: Vec<Vec<u8>>,
}

impl Input {
    /// Short texts come in `many`, so that the processor does not learn one by heart.
    pub fn new(kind: Kind, size: usize, many: usize) -> Self {
        let mut numbers = Numbers::new(0x9E37_79B9_7F4A_7C15 ^ (size as u64) << 8 ^ kind as u64);
        let count = if size <= 1024 { many } else { 1 };
        Self { kind, size, texts: (0..count).map(|_| text(kind, size, &mut numbers)).collect() }
    }
}

impl Input {
    /// The same texts with tabs: every third space of words is one, and every 18th byte of random bytes, which is about as many.
    pub fn with_tabs(&self) -> Self {
        let tabbed = |text: &Vec<u8>| {
            let mut text = text.clone();
            match self.kind {
                Kind::Random => text.iter_mut().step_by(18).for_each(|b| *b = b'\t'),
                _ => text.iter_mut().filter(|b| **b == b' ').step_by(3).for_each(|b| *b = b'\t'),
            }
            text
        };
        Self { texts: self.texts.iter().map(tabbed).collect(), ..*self }
    }
}

/// At and beside the edges of document 01's width ranges and of the sequence lengths.
const EDGES: [u32; 58] = [
    0x00, 0x0A, 0x1B, 0x1F, 0x20, 0x5B, 0x7E, 0x7F, 0x80, 0x9F, 0xA0, 0x2FF, 0x300, 0x36F, 0x370, 0x7FF, 0x800, 0x10FF, 0x1100, 0x115F, 0x1160,
    0x200A, 0x200B, 0x200F, 0x20D0, 0x20F0, 0x20F1, 0x2E7F, 0x2E80, 0x303E, 0x303F, 0x3041, 0x33FF, 0x4DBF, 0x4DC0, 0x4E00, 0xA4CF, 0xA4D0, 0xAC00,
    0xD7A3, 0xD7FF, 0xE000, 0xF900, 0xFAFF, 0xFE00, 0xFE0F, 0xFE10, 0xFE20, 0xFE6F, 0xFF00, 0xFF60, 0xFFE6, 0xFFFD, 0x1FFFF, 0x20000, 0x2FFFD,
    0x3FFFE, 0x10FFFF,
];
/// At and beside the edges of the two ranges of pictures; a combining mark and a wide character of three bytes.
const PICTURE_EDGES: [u32; 10] = [0x1F5FF, 0x1F600, 0x1F64F, 0x1F650, 0x1F67F, 0x1F680, 0x1F6C5, 0x1F6C6, 0x301, 0x6728];

/// A short text that may be a cell of a tally sheet: characters as in `damaged`, but none is a control character or a comma.
pub fn clean(numbers: &mut Numbers) -> Vec<u8> {
    let edges = if numbers.pictures() { &PICTURE_EDGES[..] } else { &EDGES[..] };
    let mut made = String::new();
    for _ in 0..numbers.within(0, 8) {
        let c = match numbers.within(0, 7) {
            0..3 => char::from_u32(edges[numbers.within(0, edges.len() as u64 - 1) as usize]).unwrap(),
            3 => ' ',
            4..6 => letter(numbers),
            _ => other_letter(numbers),
        };
        made.push(if c.is_control() || c == ',' { '~' } else { c });
    }
    made.into_bytes()
}

/// A short text of characters at and beside the edges that the numbers are about, of letters, spaces and others, some of them damaged:
/// bytes left out, changed or put in.
pub fn damaged(numbers: &mut Numbers) -> Vec<u8> {
    let edges = if numbers.pictures() { &PICTURE_EDGES[..] } else { &EDGES[..] };
    let mut made = String::new();
    for _ in 0..numbers.within(0, 12) {
        made.push(match numbers.within(0, 9) {
            0..4 => char::from_u32(edges[numbers.within(0, edges.len() as u64 - 1) as usize]).unwrap(),
            4 => ' ',
            5..7 => letter(numbers),
            7 => char::from_u32(numbers.within(0, 0x10FFFF) as u32).unwrap_or('\n'),
            _ => other_letter(numbers),
        });
    }
    let mut bytes = made.into_bytes();
    if numbers.within(0, 3) != 0 {
        for _ in 0..numbers.within(1, 3) {
            let at = numbers.within(0, bytes.len() as u64) as usize;
            match numbers.within(0, 3) {
                0 if at < bytes.len() => drop(bytes.remove(at)),
                1 if at < bytes.len() => bytes[at] = numbers.next() as u8,
                2 => bytes.truncate(at),
                _ => bytes.insert(at, numbers.within(0x80, 0xFF) as u8),
            }
        }
    }
    bytes
}
