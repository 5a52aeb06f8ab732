//! The truncating calls on long ASCII against what they cannot do without: a bare copy of the kept bytes to their place in the same buffer, and
//! that copy after measuring by the library's calls on texts. Ratios of the shortest times, taken in turns.
use std::cell::RefCell;
use std::hint::black_box;
use std::rc::Rc;

use bench::inputs::{Input, Kind, ROWS};
use bench::recordings::{labelled, view};
use bench::room::Room;
use bench::timing::{Pair, measure};
use oracle::Lists;
use ruszvedok::lent::{self, View};

const ROUNDS: usize = 200;
const ELLIPSIS: &[u8] = b"...";

/// A content, whether it is cut (to half of its width) or kept whole, and at which end. Each byte is one column wide.
struct Call {
    content: Lists,
    cut: bool,
    end: bool,
}

impl Call {
    fn max(&self) -> usize {
        self.content.data.len() / if self.cut { 2 } else { 1 }
    }

    fn kept(&self) -> &[u8] {
        let data = &self.content.data;
        let count = if self.cut { self.max() - ELLIPSIS.len() } else { data.len() };
        if self.end { &data[..count] } else { &data[data.len() - count..] }
    }

    /// Where the kept bytes go.
    fn place<'a>(&self, room: &'a mut Room) -> &'a mut [u8] {
        let first = if self.cut && !self.end { ELLIPSIS.len() } else { 0 };
        &mut room.data[first..first + self.kept().len()]
    }

    fn make(&self, room: &mut Room) {
        let call = if self.end { lent::write_truncated_end } else { lent::write_truncated_start };
        let ellipsis = View { data: ELLIPSIS, ..View::default() };
        let left = call(view(&self.content), ellipsis, self.max() as u32, room.lent());
        assert!(left.is_ok());
    }

    fn copy(&self, room: &mut Room) {
        self.place(room).copy_from_slice(self.kept());
    }

    fn measure_and_copy(&self, room: &mut Room) {
        let (data, width) = (&self.content.data, self.kept().len() as u64);
        if self.cut && !self.end {
            black_box(lent::truncate_start_pos(data, width)); // it measures the whole first
        } else {
            black_box(lent::text_width(data));
        }
        if self.cut && self.end {
            black_box(lent::truncate_end_pos(data, width));
        }
        self.copy(room);
    }
}

/// The time of the call as a multiple of the floor's; both must leave the same bytes in the place of the kept ones.
fn against(floor: fn(&Call, &mut Room), call: Call) -> Result<f64, String> {
    let check = |call: &Call| {
        let (mut ours, mut bare) = (Room::full(), Room::full());
        call.make(&mut ours);
        floor(call, &mut bare);
        if call.place(&mut ours) == call.place(&mut bare) { Ok(()) } else { Err("other bytes".into()) }
    };
    let room = Rc::new(RefCell::new(Room::full()));
    let same = room.clone();
    let pair = Pair::new(vec![call], check, move |call| floor(call, &mut room.borrow_mut()), move |call| call.make(&mut same.borrow_mut()))?;
    Ok(measure(&pair, ROUNDS).ratio())
}

fn main() -> Result<(), String> {
    let long = &ROWS[1..];
    println!("| call | entries |{}", long.iter().map(|(_, name)| format!(" {name}: of a copy | of measuring and a copy |")).collect::<String>());
    println!("|---|---|{}", "---|---|".repeat(long.len()));
    for (end, name) in [(false, "write_truncated_start"), (true, "write_truncated_end")] {
        for (cut, how) in [(true, "cut"), (false, "whole")] {
            for (apart, entries) in [(usize::MAX, "none"), (512, "one for each 512 B")] {
                let mut row = format!("| `{name}`, {how} | {entries} |");
                for &(size, _) in long {
                    let call = || {
                        let text = Input::new(Kind::Ascii, size, 1).texts.remove(0);
                        Call { content: labelled(text, size / apart).to_lists(), cut, end }
                    };
                    row += &format!(" {:.0} | {:.2} |", against(Call::copy, call())?, against(Call::measure_and_copy, call())?);
                }
                println!("{row}");
            }
        }
    }
    Ok(())
}
