//! Every refusal over lent buffers, and those that can be reached through the type; nothing is touched by any of them.
use std::io;
use std::io::Write as _;

use ruszvedok::lent::{self, Buffers, Done, Replacement, Used, View};
use ruszvedok::*;

/// Its number, or 0.
fn number(answer: Result<Done, Refusal>) -> u64 {
    answer.err().map_or(0, Refusal::number)
}

/// Runs a call over buffers of these lengths; after a refusal they must hold what they held.
fn refused(sizes: (usize, usize, usize), call: impl FnOnce(Buffers) -> Result<Done, Refusal>) -> u64 {
    let (mut data, mut entries, mut text) = (vec![0xA5; sizes.0], vec![7; sizes.1], vec![0xA5; sizes.2]);
    let answer = call(Buffers { data: &mut data, entries: &mut entries, text: &mut text });
    if answer.is_err() {
        assert_eq!((data, entries, text), (vec![0xA5; sizes.0], vec![7; sizes.1], vec![0xA5; sizes.2]));
    }
    number(answer)
}

const ENOUGH: (usize, usize, usize) = (64, 64, 64);

#[test]
fn of_a_recording() {
    let long = vec![b'a'; MAX_DATA + 1];
    let many = vec![0; 4 * MAX_ENTRIES + 4];
    let of = |data, entries, text| refused(ENOUGH, |out| lent::replay(View { data, entries, text }, out));
    assert_eq!(of(&long, &[], b""), 1);
    assert_eq!(of(b"", &[0, 1, 0], b""), 2);
    assert_eq!(of(b"", &many, b""), 2);
    assert_eq!(of(b"", &[0, 3, 0, 0], b""), 3);
    assert_eq!(of(b"", &[0, 1, 0, 1], b"a"), 3);
    assert_eq!(of(b"", &[0, 2, 0, 0], b"a"), 3);
    assert_eq!(of(b"ab", &[1, 1, 0, 0, 0, 1, 0, 0], b""), 4);
    assert_eq!(of(b"ab", &[3, 1, 0, 0], b""), 4);
    assert_eq!(of(b"", &[], &long[..MAX_TEXT + 1]), 5);
    assert_eq!(of(b"", &[0, 0, 1, 1], b"a"), 5);
    assert_eq!(of(b"", &[0, 0, 0, 1], b"\xFF"), 6);
    assert_eq!(of(b"", &[0, 2, 0, 1], b"\xFF"), 0);
    // The same through the type.
    let made = FormatRecorder::try_from(View { data: b"", entries: &[0, 0, 0, 1], text: b"\xFF" });
    assert_eq!(made, Err(Refusal::LabelIllFormed));
}

#[test]
fn of_the_buffers() {
    let row = View { data: b"ab cd", entries: &[0, 0, 0, 1, 5, 1, 0, 0], text: b"x" };
    let of = |sizes, lines: usize| refused(sizes, |out| lent::write_wrapped(row, 2, false, out, &mut vec![0; lines]));
    assert_eq!(of((4, 8, 1), 6), 21);
    assert_eq!(of((5, 7, 1), 6), 22);
    assert_eq!(of((5, 8, 0), 6), 23);
    assert_eq!(of((5, 8, 1), 5), 24);
    assert_eq!(of((5, 8, 1), 6), 0);
    let mut lines = [7; 5];
    assert_eq!((number(lent::wrap_bytes(b"ab cd", 2, false, &mut lines)), lines), (24, [7; 5]));
    let mut out = [7; 3];
    assert_eq!((number(lent::elide_end(b"spruce", b"..", 4, &mut out)), out), (21, [7; 3]));
    assert_eq!((number(lent::elide_start(b"spruce", b"..", 4, &mut out)), out), (21, [7; 3]));
    assert_eq!((number(lent::complete_newline(b"fir", &mut out)), out), (21, [7; 3]));
}

#[test]
fn of_the_recorder() {
    let used = |data| Used { data, ..Used::default() };
    assert_eq!(refused(ENOUGH, |to| lent::write(to, used(65), b"")), 10);
    assert_eq!(refused(ENOUGH, |to| lent::push_label(to, used(65), b"")), 10);
    assert_eq!(refused(ENOUGH, |to| lent::push_label(to, used(0), b"\xFF")), 6);
    assert_eq!(refused((0, 3, 0), |to| lent::pop_label(to, used(0))), 22);
    assert_eq!(refused(ENOUGH, |to| lent::raw(to, used(0), b"")), 3);
    assert_eq!(refused((0, 4, 0), |to| lent::raw(to, used(0), b"x")), 23);
    let mut row = FormatRecorder::with_data("ab").unwrap();
    assert_eq!(row.raw(b""), Err(Refusal::EntryShape));
    assert_eq!(row, FormatRecorder::with_data("ab").unwrap());
}

#[test]
fn of_replacements() {
    let row = FormatRecorder::with_data("abc").unwrap();
    let at = |start, end, from, to| Replacement { start, end, from, to };
    let bad = [[at(2, 1, 0, 0), at(2, 2, 0, 0)], [at(0, 2, 0, 0), at(1, 2, 0, 0)], [at(0, 0, 0, 0), at(3, 4, 0, 0)], [at(0, 0, 1, 0), at(0, 0, 0, 0)], [at(0, 0, 0, 2), at(0, 0, 0, 0)]];
    for records in bad {
        let mut out = FormatRecorder::with_data("held").unwrap();
        assert_eq!(write_replaced(&mut out, &row, &records, b"X"), Err(Refusal::ReplacementRange), "{records:?}");
        assert_eq!(out.data(), b"held");
    }
}

/// 31 comes behind the content's own refusals and before 9 and those of the buffers.
#[test]
fn of_tab_stops() {
    let of = |row, sizes, stop| refused(sizes, |out| lent::write_tabs_expanded(row, stop, out));
    let row = View { data: b"a\tb", entries: &[1, 0, 0, 1, 2, 1, 0, 0], text: b"x" };
    let ill_formed = View { text: b"\xFF", ..row };
    let tabs = vec![b'\t'; MAX_DATA];
    let page = View { data: &tabs, ..View::default() };
    for stop in [0, 65, u32::MAX] {
        assert_eq!(of(row, ENOUGH, stop), 31);
        assert_eq!(of(row, (0, 0, 0), stop), 31);
        assert_eq!(of(ill_formed, ENOUGH, stop), 6);
        assert_eq!(of(page, ENOUGH, stop), 31);
    }
    assert_eq!((of(ill_formed, ENOUGH, 8), of(page, ENOUGH, 64), of(page, ENOUGH, 1)), (6, 9, 21));
    for (sizes, number) in [((9, 8, 1), 0), ((8, 8, 1), 21), ((9, 7, 1), 22), ((9, 8, 0), 23)] {
        assert_eq!(of(row, sizes, 8), number, "{sizes:?}");
    }
    // A stop over 32 bits, whose low 32 bits would do, is refused too.
    for stop in [0, 65, (1 << 32) + 8] {
        let mut out = FormatRecorder::with_data("held").unwrap();
        assert_eq!(write_tabs_expanded(&mut out, &FormatRecorder::try_from(row).unwrap(), stop), Err(Refusal::TabStop));
        assert_eq!(out.data(), b"held");
    }
}

/// 32 and 33 come behind the refusals of both recordings, in this order, and before 9 and those of the buffers.
#[test]
fn of_prefixes() {
    let of = |row, prefix, sizes| refused(sizes, |out| lent::write_unindented(row, prefix, out));
    let plain = |data| View { data, ..View::default() };
    let row = View { data: b"> a\n\n> b", entries: &[1, 0, 0, 1, 8, 1, 0, 0], text: b"x" };
    let (marked, other, broken) = (plain(b"> "), plain(b">-"), plain(b">\n"));
    for sizes in [ENOUGH, (0, 0, 0)] {
        assert_eq!(of(row, broken, sizes), 32);
        assert_eq!(of(row, other, sizes), 33);
        assert_eq!(of(row, plain(b"> a"), sizes), 33);
        for prefix in [marked, other, broken] {
            assert_eq!(of(View { text: b"\xFF", ..row }, View { entries: &[0], ..prefix }, sizes), 6);
            assert_eq!(of(row, View { entries: &[0], ..prefix }, sizes), 2);
        }
    }
    // Over the limit of text, as its parts overlap: 9.
    let long = vec![b'x'; MAX_TEXT];
    let entries: Vec<u32> = [[0, 2, 0, MAX_TEXT as u32]; 2].concat();
    let row_over = View { data: b"> a", entries: &entries, text: &long };
    assert_eq!((of(row_over, broken, ENOUGH), of(row_over, other, ENOUGH), of(row_over, marked, ENOUGH)), (32, 33, 9));
    for (sizes, number) in [((4, 8, 1), 0), ((3, 8, 1), 21), ((4, 7, 1), 22), ((4, 8, 0), 23)] {
        assert_eq!(of(row, marked, sizes), number, "{sizes:?}");
    }
    for (prefix, refusal) in [(broken, Refusal::PrefixNewline), (other, Refusal::PrefixMissing)] {
        let mut out = FormatRecorder::with_data("held").unwrap();
        let (row, prefix) = (FormatRecorder::try_from(row).unwrap(), FormatRecorder::try_from(prefix).unwrap());
        assert_eq!(write_unindented(&mut out, &row, &prefix), Err(refusal));
        assert_eq!(out.data(), b"held");
    }
}

/// 34 and 35 come behind the content's own refusals, in this order, and before 9 and those of the buffers; for both readers.
#[test]
fn of_two_readers() {
    let row = View { data: "木7".as_bytes(), entries: &[0, 0, 0, 1, 1, 2, 1, 2, 4, 1, 0, 0], text: b"x\x1B[" };
    let (open, closed) = (View { entries: &row.entries[..8], ..row }, View { entries: &[0, 1, 0, 0, 0, 0, 0, 1], ..row });
    // Over the limit of text, as the parts of two raw sequences beside the label overlap.
    let long = vec![b'x'; MAX_TEXT];
    let entries: Vec<u32> = [[0, 2, 0, MAX_TEXT as u32]; 2].concat();
    let over = View { data: b"a", entries: &entries, text: &long };
    for call in [lent::write_for_office, lent::write_for_floor] {
        let of = |row, label: &[u8], sizes| refused(sizes, |out| call(row, label, out));
        for sizes in [ENOUGH, (0, 0, 0)] {
            for label in [&b""[..], b"x\xE6\x9C"] {
                assert_eq!((of(row, label, sizes), of(open, label, sizes), of(over, label, sizes)), (34, 34, 34));
                assert_eq!(of(View { text: b"\xFF\x1B[", ..row }, label, sizes), 6);
            }
            assert_eq!((of(open, b"x", sizes), of(closed, b"x", sizes), of(closed, b"y", sizes)), (35, 35, 35));
            assert_eq!(of(View { text: b"\xFF\x1B[", ..open }, b"x", sizes), 6);
            assert_eq!(of(over, b"x", sizes), 9);
        }
    }
    // What a reader is left counts: a wide character is two stars, and the raw sequence goes.
    for (sizes, office, floor) in [((4, 12, 3), 0, 0), ((3, 8, 1), 21, 0), ((4, 8, 1), 22, 0), ((4, 12, 1), 23, 0), ((2, 8, 1), 21, 21), ((3, 7, 1), 21, 22), ((3, 8, 0), 21, 23)] {
        assert_eq!(refused(sizes, |out| lent::write_for_office(row, b"x", out)), office, "{sizes:?}");
        assert_eq!(refused(sizes, |out| lent::write_for_floor(row, b"x", out)), floor, "{sizes:?}");
    }
    for (row, label, refusal) in [(row, "", Refusal::ViewLabel), (open, "x", Refusal::ContentUnbalanced)] {
        let (row, mut out) = (FormatRecorder::try_from(row).unwrap(), FormatRecorder::with_data("held").unwrap());
        assert_eq!((write_for_office(&mut out, &row, label), write_for_floor(&mut out, &row, label)), (Err(refusal), Err(refusal)));
        assert_eq!(out.data(), b"held");
    }
}

#[test]
fn of_plain_texts() {
    let long = "a".repeat(MAX_DATA + 1);
    let mut out = [7; 3];
    assert_eq!((number(lent::elide_end(b"\xFF", b"", 1, &mut out)), out), (7, [7; 3]));
    assert_eq!((number(lent::complete_newline(b"\xFF", &mut out)), out), (7, [7; 3]));
    assert_eq!(elide_end(&long, "", 1), Err(Refusal::DataTooLong));
    assert_eq!(elide_start("", &long, 1), Err(Refusal::DataTooLong));
    assert_eq!(wrap_bytes(long.as_bytes(), 1, false), Err(Refusal::DataTooLong));
    assert_eq!(complete_newline(&long), Err(Refusal::DataTooLong));
    assert_eq!(complete_newline(&long[1..]), Err(Refusal::ResultOverLimit));
    assert_eq!(elide_end(&long[1..], "", MAX_DATA).unwrap().1, MAX_DATA);
}

#[test]
fn names_and_numbers() {
    let numbers: Vec<_> = Refusal::ALL.iter().map(|refusal| refusal.number()).collect();
    assert_eq!(numbers, [1, 2, 3, 4, 5, 6, 7, 8, 9, 10, 21, 22, 23, 24, 31, 32, 33, 34, 35, 36, 37, 38, 39, 40, 41, 61, 62, 63]);
    assert!(Refusal::ALL.iter().all(|refusal| Refusal::from_number(refusal.number()) == Some(*refusal)));
    assert_eq!((Refusal::from_number(0), Refusal::from_number(11)), (None, Some(Refusal::Other(11))));
    assert_eq!(Refusal::ResultOverLimit.to_string(), "a result over a limit of the recording (refusal 9)");
    assert_eq!(Refusal::Other(11).to_string(), "unknown reason (refusal 11)");
    // As an error of writing it can be taken out again.
    let error: io::Error = FormatRecorder::new().write_all(&vec![0; MAX_DATA + 1]).unwrap_err();
    assert_eq!(error.get_ref().unwrap().downcast_ref(), Some(&Refusal::ResultOverLimit));
}
