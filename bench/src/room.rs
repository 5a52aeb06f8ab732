//! Buffers to lend to the library.
use ruszvedok::lent::Buffers;

/// Buffers for a recording: data, four numbers an entry, text.
#[derive(Clone, Debug)]
pub struct Room {
    pub data: Vec<u8>,
    pub entries: Vec<u32>,
    pub text: Vec<u8>,
}

/// The limits of a recording: data bytes, entry numbers, text bytes.
pub const LIMITS: (usize, usize, usize) = (ruszvedok::MAX_DATA, 4 * ruszvedok::MAX_ENTRIES, ruszvedok::MAX_TEXT);

impl Room {
    /// Room for any recording.
    pub fn full() -> Self {
        Self::of(LIMITS.0, LIMITS.1, LIMITS.2)
    }

    /// Room for these numbers of elements, each set to a value that a call has to write over.
    pub fn of(data: usize, entries: usize, text: usize) -> Self {
        Self { data: vec![0xA5; data], entries: vec![0xA5A5_A5A5; entries], text: vec![0xA5; text] }
    }

    pub fn lent(&mut self) -> Buffers<'_> {
        Buffers { data: &mut self.data, entries: &mut self.entries, text: &mut self.text }
    }
}
