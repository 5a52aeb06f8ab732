//! Document 01's cases C1 to C16, and the rest of the calls.
use std::borrow::Cow;

use ruszvedok::lent::Replacement;
use ruszvedok::*;

fn plain(data: &str) -> FormatRecorder {
    FormatRecorder::with_data(data).unwrap()
}

/// First byte, end and width of each line.
fn lines(text: &[u8], width: usize, break_words: bool) -> Vec<(usize, usize, usize)> {
    let start = |line: &[u8]| line.as_ptr() as usize - text.as_ptr() as usize;
    wrap_bytes(text, width, break_words).unwrap().into_iter().map(|(line, width)| (start(line), start(line) + line.len(), width)).collect()
}

type Left = Result<(String, usize), Refusal>;

/// What a call leaves in a recorder that held something else, and its number.
fn left(call: impl FnOnce(&mut FormatRecorder) -> Result<usize, Refusal>) -> Left {
    let mut out = plain("something else");
    out.push_label("old").unwrap();
    let number = call(&mut out)?;
    assert_eq!(out.ops().count(), 0);
    Ok((String::from_utf8(out.data().to_vec()).unwrap(), number))
}

#[test]
fn c1_to_c7_wrapping() {
    assert_eq!(lines(b"oak 12 ft b", 5, false), [(0, 3, 3), (4, 9, 5), (10, 11, 1)]); // C1
    assert_eq!(lines(b"", 5, false), [(0, 0, 0)]); // C2
    assert_eq!(lines(b"ab\n", 5, false), [(0, 2, 2), (3, 3, 0)]); // C3
    assert_eq!(lines(b"   ab", 2, false), [(0, 0, 0), (3, 5, 2)]); // C4
    assert_eq!(lines(b"abcde", 2, true), [(0, 2, 2), (2, 4, 2), (4, 5, 1)]); // C5
    assert_eq!(lines(b"abcde", 2, false), [(0, 5, 5)]);
    assert_eq!(lines(b"ab c", 0, true), [(0, 2, 2), (3, 4, 1)]); // C6
    assert_eq!(lines(b"\xE6\x9C\xA8a", 1, true), [(0, 3, 2), (3, 4, 1)]); // C7
    // A width counts columns: spaces inside a line, not those behind it; no zero-width character; an ill-formed sequence as one.
    assert_eq!(lines("木\u{301}  a   \nb".as_bytes(), 80, false), [(0, 8, 5), (12, 13, 1)]);
    assert_eq!(lines(b"a\xE6\x9C b", 2, false), [(0, 3, 2), (4, 5, 1)]);
    assert_eq!(left(|out| Ok(write_wrapped(out, &plain("oak 12 ft b"), 5, false)?.len())), Ok(("oak\n12 ft\nb".into(), 3)));
    assert_eq!(left(|out| Ok(write_wrapped(out, &plain("abcde"), 2, true)?.len())), Ok(("ab\ncd\ne".into(), 3)));
}

#[test]
fn c8_to_c11_cutting() {
    assert_eq!(text_width(b"\xE6\x9CA"), 2); // C8
    let (row, dots) = (plain("spruce"), plain(".."));
    assert_eq!(left(|out| write_truncated_end(out, &row, &dots, 4)), Ok(("sp..".into(), 4))); // C9
    assert_eq!(left(|out| write_truncated_start(out, &row, &dots, 4)), Ok(("..ce".into(), 4))); // C10
    assert_eq!(left(|out| write_truncated_end(out, &row, &dots, 1)), Ok((".".into(), 1))); // C11
    // A width over 32 bits is as the largest.
    assert_eq!(left(|out| write_truncated_end(out, &row, &dots, usize::MAX)), Ok(("spruce".into(), 6)));
}

#[test]
fn c12_and_c13_filling() {
    let (row, dot) = (plain("fir"), plain("."));
    let nothing = |done: Result<(), Refusal>| done.map(|()| 0);
    assert_eq!(left(|out| nothing(write_padded_centered(out, &row, &dot, 6))), Ok((".fir..".into(), 0))); // C12
    assert_eq!(left(|out| nothing(write_padded_start(out, &row, &dot, 6))), Ok(("...fir".into(), 0)));
    assert_eq!(left(|out| nothing(write_padded_end(out, &row, &dot, 6))), Ok(("fir...".into(), 0)));
    assert_eq!(left(|out| nothing(write_indented(out, &plain("a\n\nb"), &plain("> ")))), Ok(("> a\n\n> b".into(), 0))); // C13
    // A width over 32 bits: an empty fill fits, any other does not.
    assert_eq!(left(|out| nothing(write_padded_end(out, &row, &plain(""), usize::MAX))), Ok(("fir".into(), 0)));
    assert_eq!(left(|out| nothing(write_padded_end(out, &row, &dot, usize::MAX))), Err(Refusal::ResultOverLimit));
    // Outside demand 3: each piece of the fill is repeated by itself.
    let mut fill = plain("a");
    fill.push_label("x").unwrap();
    fill.write_data(b"b").unwrap();
    let mut out = FormatRecorder::new();
    write_padded_start(&mut out, &plain(""), &fill, 2).unwrap();
    assert_eq!(out.data(), b"aabb");
    assert!(out.ops().eq([(2, FormatOp::PushLabel("x"))]));
}

#[test]
fn c14_replacing() {
    let records = [Replacement { start: 1, end: 3, from: 0, to: 1 }, Replacement { start: 6, end: 6, from: 1, to: 2 }];
    assert_eq!(left(|out| write_replaced(out, &plain("abcdef"), &records, b"XY").map(|()| 0)), Ok(("aXdefY".into(), 0)));
}

/// Document 02, Q-2: at a stop, one before it, behind it; wide, zero-width and ill-formed characters; a line end.
#[test]
fn tab_stops() {
    let expanded = |text: &str, stop| left(|out| write_tabs_expanded(out, &plain(text), stop).map(|()| 0)).unwrap().0;
    assert_eq!(expanded("\ta\tbc\tdef\t", 1), " a bc def ");
    assert_eq!(expanded("\ta\tbc\tdef\t", 2), "  a bc  def ");
    assert_eq!(expanded("\ta\tbc\tdef\t", 4), "    a   bc  def ");
    assert_eq!(expanded("a\tb", 64), format!("a{}b", " ".repeat(63)));
    assert_eq!(expanded("木\ta\n\u{301}\tb\n\n\t", 4), "木  a\n\u{301}    b\n\n    ");
    let mut out = FormatRecorder::new();
    write_tabs_expanded(&mut out, &FormatRecorder::with_data(b"\xE6\x9C\t\xFF\t|").unwrap(), 3).unwrap();
    assert_eq!(out.data(), b"\xE6\x9C  \xFF  |");
    // The spaces stand behind the entries at the tab, and before those at the byte after it.
    let mut row = plain("ab");
    row.write_labeled("x", "\t").unwrap();
    row.raw(b"\x1b[m").unwrap();
    row.write_data(b"\tc").unwrap();
    write_tabs_expanded(&mut out, &row, 4).unwrap();
    assert_eq!(out.data(), b"ab      c");
    assert!(out.ops().eq([(2, FormatOp::PushLabel("x")), (4, FormatOp::PopLabel), (4, FormatOp::RawEscapeSequence(b"\x1b[m"))]));
}

/// Document 02, Q-3: lines of the prefix alone, empty ones, one that begins with it twice; the bytes of a character; no prefix at all.
#[test]
fn taking_the_indent_off() {
    let off = |text: &str, prefix: &str| left(|out| write_unindented(out, &plain(text), &plain(prefix)).map(|()| 0)).map(|(left, _)| left);
    assert_eq!(off("> a\n\n> b", "> "), Ok("a\n\nb".into()));
    assert_eq!(off("> \n> > a\n", "> "), Ok("\n> a\n".into()));
    assert_eq!(off("\n\n", "> "), Ok("\n\n".into()));
    assert_eq!(off("", "> "), Ok("".into()));
    assert_eq!(off("a\n\nb", ""), Ok("a\n\nb".into()));
    assert_eq!(off("木a\n木", "木"), Ok("a\n".into()));
    assert_eq!(off("> a\n>b", "> "), Err(Refusal::PrefixMissing));
    assert_eq!(off("> a\n>", "> "), Err(Refusal::PrefixMissing));
    assert_eq!(off("> a\n", "> a\n"), Err(Refusal::PrefixNewline));
    // Bytes are compared, not characters.
    let mut out = FormatRecorder::new();
    write_unindented(&mut out, &plain("木"), &FormatRecorder::with_data(b"\xE6").unwrap()).unwrap();
    assert_eq!(out.data(), b"\x9C\xA8");
    // Every entry stays; one among the prefix's bytes then stands before the first byte that is left.
    let mut rows = plain(">");
    rows.push_label("x").unwrap();
    rows.write_data(b" a").unwrap();
    rows.pop_label().unwrap();
    rows.write_data(b"\n> ").unwrap();
    rows.raw(b"\x1b[m").unwrap();
    rows.write_labeled("y", "b").unwrap();
    // Those of the prefix play no part.
    let mut prefix = FormatRecorder::new();
    prefix.write_labeled("mark", "> ").unwrap();
    write_unindented(&mut out, &rows, &prefix).unwrap();
    assert_eq!(out.data(), b"a\nb");
    let ops = [
        (0, FormatOp::PushLabel("x")),
        (1, FormatOp::PopLabel),
        (2, FormatOp::RawEscapeSequence(b"\x1b[m")),
        (2, FormatOp::PushLabel("y")),
        (3, FormatOp::PopLabel),
    ];
    assert!(out.ops().eq(ops));
}

/// The data with the labels that are open at each byte.
fn coloured(row: &FormatRecorder) -> Vec<(u8, Vec<String>)> {
    let labels = |span: &Span| span.labels.iter().map(ToString::to_string).collect::<Vec<_>>();
    row.spans().flat_map(|span| span.data.iter().map(move |byte| (*byte, labels(&span))).collect::<Vec<_>>()).collect()
}

/// Document 02, Q-3: there and back, both ways.
#[test]
fn indented_and_back() {
    let mut rows = plain("oak ");
    rows.write_labeled("grade", "FAS\n\n12").unwrap();
    rows.write_data(" ft\n木").unwrap();
    let mut prefix = FormatRecorder::new();
    prefix.write_labeled("mark", "|").unwrap();
    prefix.write_data(" ").unwrap();
    let (mut there, mut back) = (FormatRecorder::new(), FormatRecorder::new());
    write_indented(&mut there, &rows, &prefix).unwrap();
    assert_eq!(there.data(), "| oak FAS\n\n| 12 ft\n| 木".as_bytes());
    write_unindented(&mut back, &there, &prefix).unwrap();
    // The labels of the prefix are left, around no byte.
    assert_eq!((coloured(&back), back.ops().count()), (coloured(&rows), rows.ops().count() + 3 * prefix.ops().count()));
    write_indented(&mut there, &back, &prefix).unwrap();
    write_unindented(&mut back, &there, &plain("| ")).unwrap();
    assert_eq!(coloured(&back), coloured(&rows));
    // The other way round, bytes alone, if no line is exactly the prefix.
    for (text, same) in [("| a\n\n| | b\n", true), ("| a\n| \n| b", false)] {
        write_unindented(&mut back, &plain(text), &prefix).unwrap();
        write_indented(&mut there, &back, &prefix).unwrap();
        assert_eq!(there.data() == text.as_bytes(), same);
    }
}

/// Document 02, Q-6: what is under a label, for the office and for the floor.
#[test]
fn two_readers() {
    let mut row = plain("oak ");
    row.raw(b"\x1b[m").unwrap();
    row.push_label("price").unwrap();
    row.raw(b"\x1b[1m").unwrap();
    row.write_data("木").unwrap();
    row.write_labeled("sum", "\u{301}7\n\t").unwrap();
    row.pop_label().unwrap();
    row.write_data(" b").unwrap();
    let (mut office, mut floor) = (plain("something else"), FormatRecorder::new());
    write_for_office(&mut office, &row, "price").unwrap();
    assert_eq!(office, row);
    write_for_floor(&mut floor, &row, "price").unwrap();
    assert_eq!(floor.data(), b"oak ***\n b");
    let ops = [
        (4, FormatOp::RawEscapeSequence(b"\x1b[m")),
        (4, FormatOp::PushLabel("price")),
        (6, FormatOp::PushLabel("sum")),
        (8, FormatOp::PopLabel),
        (8, FormatOp::PopLabel),
    ];
    assert!(floor.ops().eq(ops));
    // Another label hides something else, and an absent one nothing.
    write_for_floor(&mut floor, &row, "sum").unwrap();
    assert_eq!(floor.data(), "oak 木*\n b".as_bytes());
    write_for_floor(&mut floor, &row, "pric").unwrap();
    assert_eq!(floor, row);
}

/// A character with a byte under the label is replaced as a whole, and what stands inside of it comes behind its stars.
#[test]
fn hidden_in_part() {
    let mut row = FormatRecorder::with_data(b"\xE6").unwrap();
    row.write_labeled("price", b"\x9C").unwrap();
    row.write_data(b"\xA8b\xE6\x9C").unwrap();
    row.write_labeled("price", b"\xC3").unwrap();
    let mut out = FormatRecorder::new();
    write_for_floor(&mut out, &row, "price").unwrap();
    assert_eq!(out.data(), b"**b\xE6\x9C*");
    let ops = [(2, FormatOp::PushLabel("price")), (2, FormatOp::PopLabel), (5, FormatOp::PushLabel("price")), (6, FormatOp::PopLabel)];
    assert!(out.ops().eq(ops));
}

/// Two rows that differ under the label, character for character of the same width: the floor reads the same.
#[test]
fn hidden_from_the_floor() {
    let row = |price: &str, raw: &[u8]| {
        let mut row = plain("oak ");
        row.push_label("price").unwrap();
        row.raw(raw).unwrap();
        row.write_data(price).unwrap();
        row.pop_label().unwrap();
        row.write_data(" b").unwrap();
        row
    };
    let (mut one, mut other) = (FormatRecorder::new(), FormatRecorder::new());
    write_for_floor(&mut one, &row("980 円", b"\x1b[1m"), "price").unwrap();
    write_for_floor(&mut other, &row("7é─.木", b"\x1b[38;5;1m"), "price").unwrap();
    assert_eq!((one.data(), &one), (&b"oak ****** b"[..], &other));
}

#[test]
fn c15_plain_texts() {
    assert_eq!(elide_end("spruce", "..", 4), Ok(("sp..".into(), 4))); // C15
    assert_eq!(elide_start("spruce", "..", 4), Ok(("..ce".into(), 4)));
    assert_eq!(elide_end("spruce", "..", 1), Ok((".".into(), 1)));
    assert!(matches!(elide_end("fir", "..", 3), Ok((Cow::Borrowed("fir"), 3))));
    assert!(matches!(elide_start("fir", "..", 3), Ok((Cow::Borrowed("fir"), 3))));
    assert_eq!(elide_start("木\u{301}木", "…", 3), Ok(("…木".into(), 3)));
    assert_eq!(complete_newline(""), Ok("".into()));
    assert_eq!(complete_newline("a"), Ok("a\n".into()));
    assert_eq!(complete_newline(String::from("a\n")), Ok("a\n".into()));
    assert_eq!(trim_start_zero_width_chars("\n\u{301}a\n"), "a\n");
    assert_eq!(trim_start_zero_width_chars("\u{301}"), "");
}

#[test]
fn c16_labels() {
    let mut row = FormatRecorder::new();
    row.push_label("x").unwrap();
    row.write_data(b"ab").unwrap();
    row.pop_label().unwrap();
    row.write_data(b" cd").unwrap();
    let mut out = FormatRecorder::new();
    let lines: Vec<_> = write_wrapped(&mut out, &row, 2, false).unwrap().map(|line| (line.first, line.end, line.width)).collect();
    assert_eq!(lines, [(0, 2, 2), (3, 5, 2)]);
    assert_eq!(out.data(), b"ab\ncd");
    assert!(out.ops().eq([(0, FormatOp::PushLabel("x")), (2, FormatOp::PopLabel)]));
}

/// Labels, a raw sequence and data; replayed as they were recorded.
#[test]
fn recording() {
    use std::io::Write as _;
    let mut row = FormatRecorder::new();
    row.push_label("").unwrap();
    write!(row, "a{}", 1).unwrap();
    row.raw(b"\x1b[1m").unwrap();
    row.push_label("ä").unwrap();
    row.write_all(b"\xFF").unwrap();
    row.pop_label().unwrap();
    row.flush().unwrap();
    assert_eq!(row.data(), b"a1\xFF");
    let ops = [
        (0, FormatOp::PushLabel("")),
        (2, FormatOp::RawEscapeSequence(b"\x1b[1m")),
        (2, FormatOp::PushLabel("ä")),
        (3, FormatOp::PopLabel),
    ];
    assert!(row.ops().eq(ops));
    let mut out = plain("something else");
    row.replay(&mut out).unwrap();
    assert_eq!((&out, &out.clone(), out.view().text), (&row, &row, "\x1b[1mä".as_bytes()));
    assert_ne!(row, plain("a1"));
    assert_eq!(FormatRecorder::try_from(row.view()), Ok(row.clone()));
    assert_eq!(format!("{:?}", plain("a")), "FormatRecorder { data: \"a\", ops: [] }");
    // Entries and data in order; an error ends the replay.
    use std::fmt::Write as _;
    let mut parts = String::new();
    row.replay_with(&mut parts, |to, op| write!(to, "{op:?} "), |to, range| write!(to, "{range:?} ")).unwrap();
    assert_eq!(parts, "PushLabel(\"\") 0..2 RawEscapeSequence([27, 91, 49, 109]) PushLabel(\"ä\") 2..3 PopLabel ");
    assert_eq!(row.replay_with(&mut (), |_, _| Err(1), |_, _| Ok(())), Err(1));
}

#[test]
fn positions_in_texts() {
    use ruszvedok::lent::{truncate_end_pos, truncate_start_pos, well_formed, zero_width_len, Place};
    assert_eq!(truncate_end_pos(b"\xE6\x9CA", 1), Place { pos: 2, width: 1 });
    assert_eq!(truncate_start_pos(b"\xE6\x9CA", 1), Place { pos: 2, width: 1 });
    assert_eq!(zero_width_len(b"\t\xCC\x81\xFF\n"), 3);
    assert!(well_formed("木".as_bytes()) && !well_formed(b"\xE6\x9C"));
}
