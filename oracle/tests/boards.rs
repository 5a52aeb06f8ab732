//! The cases C1 to C16 of document 01, and what the oracle's stand-ins do.
use oracle::*;

fn plain(data: &str) -> Recording {
    Recording::plain(data.as_bytes())
}

fn data(recording: Recording) -> String {
    String::from_utf8(recording.data).unwrap()
}

#[test]
fn wrapping() {
    assert_eq!(wrap_bytes(b"oak 12 ft b", 5, false), [(0, 3, 3), (4, 9, 5), (10, 11, 1)]); // C1
    assert_eq!(wrap_bytes(b"", 5, false), [(0, 0, 0)]); // C2
    assert_eq!(wrap_bytes(b"ab\n", 5, false), [(0, 2, 2), (3, 3, 0)]); // C3
    assert_eq!(wrap_bytes(b"   ab", 2, false), [(0, 0, 0), (3, 5, 2)]); // C4
    assert_eq!(wrap_bytes(b"abcde", 2, true), [(0, 2, 2), (2, 4, 2), (4, 5, 1)]); // C5
    assert_eq!(wrap_bytes(b"abcde", 2, false), [(0, 5, 5)]);
    assert_eq!(wrap_bytes(b"ab c", 0, true), [(0, 2, 2), (3, 4, 1)]); // C6
    assert_eq!(wrap_bytes(b"\xE6\x9C\xA8a", 1, true), [(0, 3, 2), (3, 4, 1)]); // C7
}

#[test]
fn cutting() {
    assert_eq!(text_width(b"\xE6\x9CA"), 2); // C8
    assert_eq!(truncate_end_pos_bytes(b"\xE6\x9CA", 1), (2, 1));
    assert_eq!(truncate_start_pos_bytes(b"\xE6\x9CA", 1), (2, 1));
    let cut = |(recording, width)| (data(recording), width);
    assert_eq!(cut(write_truncated_end(&plain("spruce"), &plain(".."), 4)), ("sp..".into(), 4)); // C9
    assert_eq!(cut(write_truncated_start(&plain("spruce"), &plain(".."), 4)), ("..ce".into(), 4)); // C10
    assert_eq!(cut(write_truncated_end(&plain("spruce"), &plain(".."), 1)), (".".into(), 1)); // C11
    assert_eq!(elide_end("spruce", "..", 4), ("sp..".into(), 4)); // C15
    assert_eq!(elide_start("spruce", "..", 4), ("..ce".into(), 4));
}

/// Document 02's Q-5: on both sides of the ends of the two ranges.
#[test]
fn pictures() {
    let widths = |text: &str| text.chars().map(|c| text_width(c.to_string().as_bytes())).collect::<Vec<_>>();
    assert_eq!(widths("\u{1F5FF}\u{1F600}\u{1F64F}\u{1F650}"), [1, 2, 2, 1]);
    assert_eq!(widths("\u{1F67F}\u{1F680}\u{1F6C5}\u{1F6C6}"), [1, 2, 2, 1]);
    assert_eq!(truncate_end_pos_bytes("\u{1F600}a".as_bytes(), 1), (0, 0));
    assert_eq!(wrap_bytes("a\u{1F680}".as_bytes(), 2, true), [(0, 1, 1), (1, 5, 2)]);
}

#[test]
fn filling() {
    assert_eq!(data(write_padded_centered(&plain("fir"), &plain("."), 6)), ".fir.."); // C12
    assert_eq!(data(write_padded_start(&plain("fir"), &plain("."), 6)), "...fir");
    assert_eq!(data(write_padded_end(&plain("fir"), &plain("."), 6)), "fir...");
    assert_eq!(data(write_indented(&plain("a\n\nb"), &plain("> "))), "> a\n\n> b"); // C13
    // A fill with an entry inside.
    let entry = Entry { at: 1, kind: Kind::Raw, text: b"r".to_vec() };
    let fill = Recording { data: b"ab".to_vec(), entries: vec![entry] };
    let filled = write_padded_start(&plain(""), &fill, 2);
    assert_eq!((&filled.data[..], filled.entries[0].at), (&b"aabb"[..], 2));
}

#[test]
fn replacing() {
    let records = [Replacement { start: 1, end: 3, from: 0, to: 1 }, Replacement { start: 6, end: 6, from: 1, to: 2 }];
    assert_eq!(data(write_replaced(&plain("abcdef"), &records, b"XY")), "aXdefY"); // C14
}

#[test]
fn labels() {
    // C16: `ab` labelled.
    let entries = vec![
        Entry { at: 0, kind: Kind::Push, text: b"x".to_vec() },
        Entry { at: 2, kind: Kind::Pop, text: vec![] },
    ];
    let content = Recording { data: b"ab cd".to_vec(), entries: entries.clone() };
    let wrapped = write_wrapped(&content, 2, false);
    assert_eq!(wrapped, Recording { data: b"ab\ncd".to_vec(), entries });
    assert_eq!(replay(&content), content);
}

#[test]
fn forms_of_a_recording() {
    let content = Recording {
        data: b"abc".to_vec(),
        entries: vec![
            Entry { at: 0, kind: Kind::Push, text: b"".to_vec() },
            Entry { at: 1, kind: Kind::Raw, text: b"\x1b[1m".to_vec() },
            Entry { at: 1, kind: Kind::Push, text: "ä".into() },
            Entry { at: 3, kind: Kind::Pop, text: vec![] },
        ],
    };
    assert_eq!(Recording::from_recorder(&content.to_recorder()), content);
    let lists = content.to_lists();
    assert_eq!(lists.entries, [0, 0, 0, 0, 1, 2, 0, 4, 1, 0, 4, 2, 3, 1, 0, 0]);
    assert_eq!(lists.text, b"\x1b[1m\xC3\xA4");
    assert_eq!(Recording::from_lists(&lists.data, &lists.entries, &lists.text), Some(content));
    assert_eq!(Recording::from_lists(b"", &[0, 3, 0, 0], b""), None);
    assert_eq!(Recording::from_lists(b"", &[0, 0, 0, 1], b""), None);
}

#[test]
fn text() {
    assert_eq!(complete_newline(""), "");
    assert_eq!(complete_newline("a"), "a\n");
    assert_eq!(complete_newline("a\n"), "a\n");
    assert_eq!(trim_start_zero_width_chars("\n\u{301}a\n"), "a\n");
    assert_eq!(count_start_zero_width_chars_bytes(b"\t\xCC\x81\xFF\n"), 3);
}

#[test]
fn escapes() {
    // The real display width skips the escape; the sum counts its characters but the first.
    assert_eq!(original::real::wrap_bytes(b"\x1b[1mab \x1b[0mc", 4, false), [&b"\x1b[1mab \x1b[0mc"[..]]);
    assert_eq!(wrap_bytes(b"\x1b[1mab \x1b[0mc", 4, false), [(0, 6, 5), (7, 12, 4)]);
}
