//! The calls of the line index, against both forms of ours: the original has none. Lists are right, of another length, or wrong in a number.
use std::fmt::Debug;

use bench::inputs::Numbers;
use bench::ours::{self, ByByte, ByMemchr, Newlines};
use bench::recordings::{Left, view};
use oracle::Lists;
use ruszvedok::Refusal;
use ruszvedok::lent;

use crate::{REFUSED, input, same};

/// What a number is that no call has written.
const UNTOUCHED: u32 = 0xA5A5_A5A5;

/// A content in the library's form; in half of them one byte in some is made a 0A, up to all.
fn content(numbers: &mut Numbers) -> Lists {
    let (mut lists, _, _) = input(numbers, 8);
    if numbers.within(0, 1) == 0 {
        let rare = numbers.within(0, 20);
        lists.data.iter_mut().filter(|_| numbers.within(0, rare) == 0).for_each(|byte| *byte = b'\n');
    }
    lists
}

/// 0, and the place after each 0A.
fn starts(data: &[u8]) -> Vec<u32> {
    [0].into_iter().chain(ByByte::behind(data).map(|at| at as u32)).collect()
}

/// Now and then one number is another, is gone, or comes once more.
fn maybe_wrong(list: &mut Vec<u32>, numbers: &mut Numbers) {
    if list.is_empty() || numbers.within(0, 5) != 0 {
        return;
    }
    let at = numbers.within(0, list.len() as u64 - 1) as usize;
    match numbers.within(0, 5) {
        0 => drop(list.remove(at)),
        1 => list.insert(at, list[at]),
        2 => list[at] = u32::MAX,
        3 => list[at] = numbers.within(0, list[list.len() - 1] as u64 + 2) as u32,
        4 => list[at] = list[at].wrapping_add(1),
        _ => list[at] = list[at].wrapping_sub(1),
    }
}

/// Around a number, or so far beyond that sums would pass the end.
fn around(n: usize, numbers: &mut Numbers) -> usize {
    match numbers.within(0, 99) {
        0 => usize::MAX - numbers.within(0, 2) as usize,
        1..20 => (n + numbers.within(0, 3) as usize).saturating_sub(1),
        _ => numbers.within(0, n as u64) as usize,
    }
}

/// The library's call on a list and both of ours: the answers, and all of the list.
fn on_list(
    list: Vec<u32>,
    rust: [&dyn Fn(&mut [u32]) -> Result<usize, u64>; 2],
    rattle: impl FnOnce(&mut [u32]) -> Left,
    input: &dyn Debug,
) -> Result<(), String> {
    let mut left = list.clone();
    let got = rattle(&mut left).map_err(Refusal::number);
    REFUSED.with(|n| n.set(n.get() + got.is_err() as u64));
    let got = got.map(|done| (done.number as usize, done.used == lent::Used::default()));
    for call in rust {
        let mut expected = list.clone();
        let answer = call(&mut expected);
        if answer.is_err() && expected != list {
            return Err(format!("ours has written in a refused call on {input:x?}"));
        }
        same((answer.map(|count| (count, true)), &expected), (got, &left), input)?;
    }
    Ok(())
}

/// The library's question and both of ours.
fn asked(
    rust: [Result<(usize, usize), u64>; 2],
    rattle: Result<(usize, usize), Refusal>,
    input: &dyn Debug,
) -> Result<(), String> {
    let got = rattle.map_err(Refusal::number);
    REFUSED.with(|n| n.set(n.get() + got.is_err() as u64));
    rust.into_iter().try_for_each(|expected| same(expected, got, input))
}

fn build_of(lists: &Lists, list: Vec<u32>) -> Result<(), String> {
    let ours: [&dyn Fn(&mut [u32]) -> Result<usize, u64>; 2] =
        [&|list| ours::build_line_index::<ByByte>(lists, list), &|list| ours::build_line_index::<ByMemchr>(lists, list)];
    let room = list.len();
    on_list(list, ours, |list| lent::build_line_index(view(lists), list), &(lists, room))
}

fn extend_of(lists: &Lists, earlier: usize, list: Vec<u32>, used: usize) -> Result<(), String> {
    let ours: [&dyn Fn(&mut [u32]) -> Result<usize, u64>; 2] = [
        &|list| ours::extend_line_index::<ByByte>(lists, earlier, list, used),
        &|list| ours::extend_line_index::<ByMemchr>(lists, earlier, list, used),
    ];
    let input = (lists, earlier, list.clone(), used);
    on_list(list, ours, |list| lent::extend_line_index(view(lists), earlier, list, used), &input)
}

fn line_of(lists: &Lists, index: &[u32], n: usize) -> Result<(), String> {
    let ours = [ours::line_at::<ByByte>(lists, index, n), ours::line_at::<ByMemchr>(lists, index, n)];
    asked(ours, lent::line_at(view(lists), index, n).map(|line| (line.start, line.end)), &(lists, index, n))
}

fn place_of_of(lists: &Lists, index: &[u32], offset: usize) -> Result<(), String> {
    let ours = [ours::place_of::<ByByte>(lists, index, offset), ours::place_of::<ByMemchr>(lists, index, offset)];
    asked(ours, lent::place_of(view(lists), index, offset).map(|at| (at.line, at.column)), &(lists, index, offset))
}

pub fn build(numbers: &mut Numbers) -> Result<(), String> {
    let lists = content(numbers);
    let count = starts(&lists.data).len();
    let room = match numbers.within(0, 3) {
        0 => count,
        1 => numbers.within(0, count as u64 - 1) as usize,
        2 => count + numbers.within(0, 9) as usize,
        // For each byte one and one more: nothing needs to be counted.
        _ => lists.data.len() + numbers.within(0, 2) as usize,
    };
    build_of(&lists, vec![UNTOUCHED; room])
}

pub fn extend(numbers: &mut Numbers) -> Result<(), String> {
    let lists = content(numbers);
    let (data, count) = (&lists.data, starts(&lists.data).len());
    let earlier = around(data.len(), numbers);
    let mut list = starts(&data[..earlier.min(data.len())]);
    maybe_wrong(&mut list, numbers);
    let used = if numbers.within(0, 9) == 0 { around(list.len(), numbers) } else { list.len() };
    match numbers.within(0, 3) {
        0 => list.resize(count, UNTOUCHED),
        1 => list.resize(numbers.within(0, count as u64) as usize, UNTOUCHED),
        2 => list.resize(count + numbers.within(0, 9) as usize, UNTOUCHED),
        _ => list.resize(list.len() + (data.len() - earlier.min(data.len())) + numbers.within(0, 2) as usize, UNTOUCHED),
    }
    extend_of(&lists, earlier, list, used)
}

pub fn line_at(numbers: &mut Numbers) -> Result<(), String> {
    let lists = content(numbers);
    let mut index = starts(&lists.data);
    maybe_wrong(&mut index, numbers);
    let n = around(index.len().saturating_sub(1), numbers);
    line_of(&lists, &index, n)
}

pub fn place_of(numbers: &mut Numbers) -> Result<(), String> {
    let lists = content(numbers);
    let mut index = starts(&lists.data);
    maybe_wrong(&mut index, numbers);
    let offset = around(lists.data.len(), numbers);
    place_of_of(&lists, &index, offset)
}

/// Every string of up to eight of two bytes. Building in lists of every length up to two more than it needs; extending from every earlier
/// length, and from one beyond the data, with the index of every beginning, in lists of every such length, with every number used.
pub fn exhaustive_lists() -> Result<u64, String> {
    let mut made = 0;
    for lists in contents(8) {
        let data = &lists.data;
        let rooms = 0..=starts(data).len() + 2;
        for room in rooms.clone() {
            build_of(&lists, vec![UNTOUCHED; room])?;
            made += 1;
        }
        for earlier in 0..=data.len() + 1 {
            for of in 0..=data.len() {
                for room in rooms.clone() {
                    let mut list = starts(&data[..of]);
                    list.resize(room, UNTOUCHED);
                    for used in 0..=room + 1 {
                        extend_of(&lists, earlier, list.clone(), used)?;
                        made += 1;
                    }
                }
            }
        }
    }
    Ok(made)
}

/// Every string of up to five of two bytes, every list of up to five numbers up to one beyond the data, and every line and offset up to there.
pub fn exhaustive_questions() -> Result<u64, String> {
    let mut made = 0;
    for lists in contents(5) {
        let most = lists.data.len() + 1;
        for len in 0..=5u32 {
            for k in 0..(most + 1).pow(len) {
                let index: Vec<u32> = (0..len).map(|i| (k / (most + 1).pow(i) % (most + 1)) as u32).collect();
                for at in 0..=most {
                    line_of(&lists, &index, at)?;
                    place_of_of(&lists, &index, at)?;
                    made += 2;
                }
            }
        }
    }
    Ok(made)
}

/// Every string of up to so many of two bytes, without entries.
fn contents(most: u32) -> impl Iterator<Item = Lists> {
    let string = |len: u32, k: u32| (0..len).map(|i| if k >> i & 1 == 0 { b'a' } else { b'\n' }).collect();
    (0..=most).flat_map(move |len| (0..1 << len).map(move |k| Lists { data: string(len, k), ..Lists::default() }))
}
