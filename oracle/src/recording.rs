//! A recording as plain data, and its two other forms: the original's `FormatRecorder`, and the three lists of numbers and bytes
//! that the library's calls take and leave.
use std::collections::HashMap;
use std::io::Write as _;

use crate::formatter::FormatRecorder;
use crate::formatter::Formatter as _;

/// What an entry does, with the number that document 01 gives it.
#[derive(Clone, Copy, Debug, PartialEq, Eq, Hash)]
#[repr(u32)]
pub enum Kind {
    Push = 0,
    Pop = 1,
    Raw = 2,
}

impl Kind {
    pub fn from_number(number: u32) -> Option<Self> {
        match number {
            0 => Some(Self::Push),
            1 => Some(Self::Pop),
            2 => Some(Self::Raw),
            _ => None,
        }
    }
}

/// One entry: its position in the data, its kind, and its label or raw bytes (none for a pop).
#[derive(Clone, Debug, PartialEq, Eq, Hash)]
pub struct Entry {
    pub at: usize,
    pub kind: Kind,
    pub text: Vec<u8>,
}

#[derive(Clone, Debug, Default, PartialEq, Eq, Hash)]
pub struct Recording {
    pub data: Vec<u8>,
    pub entries: Vec<Entry>,
}

/// A recording in the library's form: data, four numbers an entry (position, kind, start and length of its text), text.
#[derive(Clone, Debug, Default, PartialEq, Eq, Hash)]
pub struct Lists {
    pub data: Vec<u8>,
    pub entries: Vec<u32>,
    pub text: Vec<u8>,
}

impl Recording {
    pub fn plain(data: &[u8]) -> Self {
        Self { data: data.to_vec(), entries: vec![] }
    }

    /// The original's recorder, made by its public calls. The recording must be one that document 01 accepts: positions that never
    /// fall and stay within the data, labels well-formed, raw sequences not empty.
    pub fn to_recorder(&self) -> FormatRecorder {
        let mut made = FormatRecorder::new(false);
        let mut written = 0;
        for entry in &self.entries {
            made.write_all(&self.data[written..entry.at]).unwrap();
            written = entry.at;
            match entry.kind {
                Kind::Push => made.push_label(std::str::from_utf8(&entry.text).expect("a label is well-formed")),
                Kind::Pop => made.pop_label(),
                Kind::Raw => made.raw().unwrap().write_all(&entry.text).unwrap(),
            }
        }
        made.write_all(&self.data[written..]).unwrap();
        made
    }

    pub fn from_recorder(recorder: &FormatRecorder) -> Self {
        let entries = recorder.entries().map(|(at, kind, text)| Entry { at, kind, text: text.to_vec() }).collect();
        Self { data: recorder.data().to_vec(), entries }
    }

    /// The library's form, in which layout calls and `replay` leave their results: the texts one after another from 0 in entry order,
    /// but equal texts of pushes share the part of the first one (document 02, Q-8). The original has no starts; it gives each entry's
    /// text, and where that is stored, and so how long the text is, comes from the document.
    pub fn to_lists(&self) -> Lists {
        let mut lists = Lists { data: self.data.clone(), ..Lists::default() };
        let mut labels = HashMap::new();
        for entry in &self.entries {
            let end = lists.text.len();
            let start = match entry.kind {
                Kind::Push => *labels.entry(&entry.text[..]).or_insert(end),
                Kind::Pop => 0,
                Kind::Raw => end,
            };
            lists.entries.extend([entry.at as u32, entry.kind as u32, start as u32, entry.text.len() as u32]);
            if start == end {
                lists.text.extend_from_slice(&entry.text);
            }
        }
        lists
    }

    /// None if the numbers are not those of a recording (kind, or a part outside the text).
    pub fn from_lists(data: &[u8], entries: &[u32], text: &[u8]) -> Option<Self> {
        let rows = entries.chunks_exact(4);
        if !rows.remainder().is_empty() {
            return None;
        }
        let entries = rows
            .map(|row| {
                let (start, len) = (row[2] as usize, row[3] as usize);
                Some(Entry { at: row[0] as usize, kind: Kind::from_number(row[1])?, text: text.get(start..start + len)?.to_vec() })
            })
            .collect::<Option<_>>()?;
        Some(Self { data: data.to_vec(), entries })
    }
}
