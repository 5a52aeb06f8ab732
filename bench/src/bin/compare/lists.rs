//! Lists of layout calls on one content: each call's content is the result of the last one that was not refused. The original's
//! recorders go the same way beside it, and both are compared after every call.
use bench::inputs::{Numbers, damaged};
use bench::recordings::{Answer, Expected, listed, view};
use bench::room::Room;
use oracle::original::{self, FormatRecorder};
use oracle::{Lists, Recording};
use ruszvedok::lent;

use crate::{input, lend_to, records, records_fault, same, wrap_width};

/// The content in the library's form, as the library left it, and the original's recorder of it.
struct Content {
    lists: Lists,
    recorder: FormatRecorder,
}

impl Content {
    fn agrees(&self) -> Result<(), String> {
        let read = Recording::from_lists(&self.lists.data, &self.lists.entries, &self.lists.text);
        same(Some(Recording::from_recorder(&self.recorder)), read, &"the content of a list")
    }
}

/// One list for each case, of one to eight calls.
pub fn lists_of_calls(numbers: &mut Numbers, count: u64) -> Result<u64, String> {
    let mut made = 0;
    for case in 0..count {
        let (lists, fault, first) = input(numbers, 8);
        if fault != 0 {
            continue;
        }
        let mut content = Content { lists, recorder: first.to_recorder() };
        for step in 0..numbers.within(1, 8) {
            call(&mut content, numbers).and_then(|()| content.agrees()).map_err(|e| format!("list {case}, call {step}: {e}"))?;
            made += 1;
        }
    }
    Ok(made)
}

/// Any of the eight calls. If it is not refused, its result is the next content.
fn call(content: &mut Content, numbers: &mut Numbers) -> Result<(), String> {
    let Content { lists, recorder } = &*content;
    let (mut second_lists, mut second_fault, mut second) = input(numbers, 4);
    if second_lists.data.len() * lists.data.len() > 1 << 22 {
        // A long prefix before very many lines would fill the memory.
        (second, second_fault) = (Recording::plain(b"> "), 0);
        second_lists = second.to_lists();
    }
    let theirs = second.to_recorder();
    let width = numbers.within(0, oracle::text_width(&lists.data) as u64 + 9) as usize;
    let (wrap_width, break_words) = (wrap_width(&lists.data, numbers), numbers.within(0, 1) == 0);
    let text = damaged(numbers);
    let records = records(lists.data.len(), text.len(), numbers);

    let name = numbers.within(0, 7);
    let fault = match name {
        6 => 0,
        7 => records_fault(&records, lists.data.len(), text.len()),
        _ => second_fault,
    };
    let (mut result, mut lines, mut number) = (FormatRecorder::new(false), vec![], 0);
    let out = &mut result;
    let done = match name {
        _ if fault != 0 => Ok(()),
        0 => original::write_truncated_start(out, recorder, &theirs, width).map(|width| number = width),
        1 => original::write_truncated_end(out, recorder, &theirs, width).map(|width| number = width),
        2 => original::write_padded_start(out, recorder, &theirs, width),
        3 => original::write_padded_end(out, recorder, &theirs, width),
        4 => original::write_padded_centered(out, recorder, &theirs, width),
        5 => original::write_indented(out, recorder, |out| theirs.replay(out)),
        6 => {
            let (count, numbers) = listed(&lists.data, wrap_width, break_words);
            (number, lines) = (count as usize, numbers);
            original::write_wrapped(out, recorder, wrap_width, break_words)
        }
        _ => {
            let ranges: Vec<_> = records.iter().map(|r| r.start as usize..r.end as usize).collect();
            original::write_replaced(out, recorder, &ranges, |out, i| out.write_all(&text[records[i].from as usize..records[i].to as usize]))
        }
    };
    done.expect("a recorder takes everything");

    let (ours, its_second, width) = (view(lists), view(&second_lists), width as u32);
    let rattle = |room: &mut Room, lines: &mut [u32]| match name {
        0 => lent::write_truncated_start(ours, its_second, width, room.lent()),
        1 => lent::write_truncated_end(ours, its_second, width, room.lent()),
        2 => lent::write_padded_start(ours, its_second, width, room.lent()),
        3 => lent::write_padded_end(ours, its_second, width, room.lent()),
        4 => lent::write_padded_centered(ours, its_second, width, room.lent()),
        5 => lent::write_indented(ours, its_second, room.lent()),
        6 => lent::write_wrapped(ours, wrap_width as u32, break_words, room.lent(), lines),
        _ => lent::write_replaced(ours, &records, &text, room.lent()),
    };
    let expected = Expected { faults: vec![fault], result: Recording::from_recorder(&result).to_lists(), lines, number: number as u64 };
    let (answer, room) = lend_to(expected.room(numbers), &expected, rattle, &(name, lists, &second_lists, width, &records))?;
    if answer.refusal == 0 {
        *content = Content { lists: left(answer, room), recorder: result };
    }
    Ok(())
}

/// What a call left in the buffers.
fn left(answer: Answer, mut room: Room) -> Lists {
    let used = answer.used();
    room.data.truncate(used.data);
    room.entries.truncate(used.entries);
    room.text.truncate(used.text);
    Lists { data: room.data, entries: room.entries, text: room.text }
}
