//! The same through the type with its own buffers and the functions over it, `ruszvedok::FormatRecorder` and `text_util`: they must
//! grow as needed, whatever an earlier call left in them.
use std::mem::swap;

use bench::inputs::{Numbers, damaged};
use bench::recordings::{content, label, recording, view};
use bench::room::LIMITS;
use oracle::original::{self, Formatter as _};
use oracle::{Entry, Kind, Recording};
use ruszvedok::{FormatOp, FormatRecorder};
use std::io::Write as _;

use crate::{records, records_fault, same, wrap_width};

/// A recorder of each side.
struct Sides {
    ours: FormatRecorder,
    theirs: original::FormatRecorder,
}

fn read(recorder: &FormatRecorder) -> Recording {
    let entry = |(at, op): (usize, FormatOp)| match op {
        FormatOp::PushLabel(label) => Entry { at, kind: Kind::Push, text: label.into() },
        FormatOp::PopLabel => Entry { at, kind: Kind::Pop, text: vec![] },
        FormatOp::RawEscapeSequence(sequence) => Entry { at, kind: Kind::Raw, text: sequence.to_vec() },
        _ => unreachable!("a recording has no other entries"),
    };
    Recording { data: recorder.data().to_vec(), entries: recorder.ops().map(entry).collect() }
}

impl Sides {
    fn agree(&self, call: u64) -> Result<(), String> {
        same(Recording::from_recorder(&self.theirs), read(&self.ours), &("the recorder after call", call))
    }

    /// Data, a label, a pop or a raw sequence.
    fn add(&mut self, numbers: &mut Numbers) -> Result<(), String> {
        let added = content(numbers);
        // Half of the labels are of a few, so that equal ones come often.
        let label = if numbers.within(0, 1) == 0 { label(numbers) } else { added[..added.len().min(40)].to_vec() };
        let label = String::from_utf8_lossy(&label).into_owned();
        let done = match numbers.within(0, 3) {
            0 => self.ours.push_label(&label).map(|()| self.theirs.push_label(&label)),
            1 => self.ours.pop_label().map(|()| self.theirs.pop_label()),
            2 if !added.is_empty() => self.ours.raw(&added).map(|()| self.theirs.raw().unwrap().write_all(&added).unwrap()),
            _ => self.ours.write_data(&added).map(|()| self.theirs.write_all(&added).unwrap()),
        };
        done.map_err(|refusal| format!("adding: {refusal}"))
    }

    /// One of the eight layout calls or `replay`; its result is the next content, unless it is refused. `out` holds the one before.
    fn lay_out(&mut self, out: &mut FormatRecorder, numbers: &mut Numbers) -> Result<u64, String> {
        let Self { ours, theirs } = self;
        let second = recording(numbers, 4);
        let second = if second.data.len() * ours.data().len() > 1 << 22 { Recording::plain(b"> ") } else { second };
        let (second_lists, their_second) = (second.to_lists(), second.to_recorder());
        let our_second = FormatRecorder::try_from(view(&second_lists)).map_err(|refusal| format!("a recording: {refusal}"))?;
        let width = numbers.within(0, oracle::text_width(ours.data()) as u64 + 9) as usize;
        let (wrap_width, break_words) = (wrap_width(ours.data(), numbers), numbers.within(0, 1) == 0);
        let text = damaged(numbers);
        let records = records(ours.data().len(), text.len(), numbers);
        let (mut result, mut number) = (original::FormatRecorder::new(false), 0);
        let name = numbers.within(0, 8);
        let before = read(out);

        use ruszvedok::*;
        let got = match name {
            0 => write_truncated_start(out, ours, &our_second, width),
            1 => write_truncated_end(out, ours, &our_second, width),
            2 => write_padded_start(out, ours, &our_second, width).map(|()| 0),
            3 => write_padded_end(out, ours, &our_second, width).map(|()| 0),
            4 => write_padded_centered(out, ours, &our_second, width).map(|()| 0),
            5 => write_indented(out, ours, &our_second).map(|()| 0),
            6 => write_wrapped(out, ours, wrap_width, break_words).map(|lines| lines.len()),
            7 => write_replaced(out, ours, &records, &text).map(|()| 0),
            _ => ours.replay(out).map(|()| 0),
        };
        let bad = name == 7 && records_fault(&records, ours.data().len(), text.len()) != 0;
        let done = match name {
            _ if bad => Ok(()),
            0 => original::write_truncated_start(&mut result, theirs, &their_second, width).map(|width| number = width),
            1 => original::write_truncated_end(&mut result, theirs, &their_second, width).map(|width| number = width),
            2 => original::write_padded_start(&mut result, theirs, &their_second, width),
            3 => original::write_padded_end(&mut result, theirs, &their_second, width),
            4 => original::write_padded_centered(&mut result, theirs, &their_second, width),
            5 => original::write_indented(&mut result, theirs, |out| their_second.replay(out)),
            6 => {
                number = original::wrap_bytes(theirs.data(), wrap_width, break_words).len();
                original::write_wrapped(&mut result, theirs, wrap_width, break_words)
            }
            7 => {
                let ranges: Vec<_> = records.iter().map(|r| r.start as usize..r.end as usize).collect();
                let part = |i: usize| &text[records[i].from as usize..records[i].to as usize];
                original::write_replaced(&mut result, theirs, &ranges, |out, i| out.write_all(part(i)))
            }
            _ => theirs.replay(&mut result),
        };
        done.expect("a recorder takes everything");

        let sizes = Recording::from_recorder(&result).to_lists();
        let over = sizes.data.len() > LIMITS.0 || sizes.entries.len() > LIMITS.1 || sizes.text.len() > LIMITS.2;
        let wanted = match (bad, over) {
            (true, _) => Err(Refusal::ReplacementRange),
            (_, true) => Err(Refusal::ResultOverLimit),
            _ => Ok(number),
        };
        same(wanted, got, &(name, read(ours), second, width))?;
        match wanted {
            Ok(_) => {
                *theirs = result;
                swap(ours, out);
            }
            Err(_) => {
                crate::REFUSED.with(|n| n.set(n.get() + 1));
                same(before, read(out), &"what a refused call was given")?;
            }
        }
        Ok(name)
    }
}

/// One recorder for each case, filled by adding calls and then laid out some times. The buffers go from one case to the next.
pub fn recorders(numbers: &mut Numbers, count: u64) -> Result<u64, String> {
    let (mut kept, mut out, mut made) = (FormatRecorder::new(), FormatRecorder::new(), 0);
    for case in 0..count {
        FormatRecorder::new().replay(&mut kept).map_err(|refusal| format!("nothing to replay: {refusal}"))?;
        let mut sides = Sides { ours: kept, theirs: original::FormatRecorder::new(false) };
        let mut calls = || {
            for _ in 0..numbers.within(0, 6) {
                sides.add(numbers)?;
                sides.agree(9)?;
                made += 1;
            }
            for _ in 0..numbers.within(0, 5) {
                let call = sides.lay_out(&mut out, numbers)?;
                sides.agree(call)?;
                made += 1;
            }
            Ok(())
        };
        calls().map_err(|e: String| format!("case {case}: {e}"))?;
        // Now and then from nothing.
        kept = if case % 16 == 0 { FormatRecorder::new() } else { sides.ours };
        out = if case % 7 == 0 { FormatRecorder::new() } else { out };
    }
    Ok(made)
}

/// The functions over plain texts.
pub fn texts(numbers: &mut Numbers, count: u64) -> Result<u64, String> {
    for _ in 0..count {
        let bytes = content(numbers);
        let text = String::from_utf8_lossy(&bytes).into_owned();
        let ellipsis = String::from_utf8_lossy(&damaged(numbers)).into_owned();
        let width = numbers.within(0, oracle::text_width(text.as_bytes()) as u64 + 3) as usize;
        let input = (&text, &ellipsis, width);
        let start = ruszvedok::elide_start(&text, &ellipsis, width).map(|(made, width)| (made.into_owned(), width));
        same(Ok(oracle::elide_start(&text, &ellipsis, width)), start, &input)?;
        let end = ruszvedok::elide_end(&text, &ellipsis, width).map(|(made, width)| (made.into_owned(), width));
        same(Ok(oracle::elide_end(&text, &ellipsis, width)), end, &input)?;
        same(Ok(oracle::complete_newline(&text)), ruszvedok::complete_newline(&text), &text)?;
        same(oracle::trim_start_zero_width_chars(&text), ruszvedok::trim_start_zero_width_chars(&text), &text)?;
        let (wrap_width, break_words) = (wrap_width(&bytes, numbers), numbers.within(0, 1) == 0);
        let start = |line: &[u8]| line.as_ptr() as usize - bytes.as_ptr() as usize;
        let place = |(line, width): (&[u8], usize)| (start(line), start(line) + line.len(), width);
        let ours = ruszvedok::wrap_bytes(&bytes, wrap_width, break_words).map(|lines| lines.into_iter().map(place).collect());
        same(Ok(oracle::wrap_bytes(&bytes, wrap_width, break_words)), ours, &(&bytes, wrap_width, break_words))?;
    }
    Ok(5 * count)
}
