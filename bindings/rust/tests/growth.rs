//! Buffers that grow from nothing up to each limit, and the refusal one beyond it.
use ruszvedok::*;

#[test]
fn data_up_to_its_limit() {
    let mut row = FormatRecorder::new();
    for size in [0, 1, 2, 15, 16, 17, 1000, 65_536] {
        row.write_data(vec![b'a'; size]).unwrap();
    }
    row.write_data(vec![b'a'; MAX_DATA - row.data().len()]).unwrap();
    assert_eq!(row.data(), vec![b'a'; MAX_DATA]);
    assert_eq!(row.write_data(b"a"), Err(Refusal::ResultOverLimit));
    assert_eq!(row.write_data(b""), Ok(()));
    assert_eq!(row.data().len(), MAX_DATA);
    assert_eq!(FormatRecorder::with_data(row.data()).unwrap(), row);
    assert_eq!(FormatRecorder::with_data(vec![0; MAX_DATA + 1]), Err(Refusal::ResultOverLimit));
}

#[test]
fn entries_up_to_their_limit() {
    let mut row = FormatRecorder::with_data("a").unwrap();
    for _ in 0..MAX_ENTRIES {
        row.pop_label().unwrap();
    }
    assert_eq!(row.pop_label(), Err(Refusal::ResultOverLimit));
    assert_eq!(row.push_label(""), Err(Refusal::ResultOverLimit));
    assert_eq!(row.raw(b"x"), Err(Refusal::ResultOverLimit));
    assert_eq!(row.ops().count(), MAX_ENTRIES);
}

#[test]
fn text_up_to_its_limit() {
    let mut row = FormatRecorder::new();
    for number in 0..MAX_TEXT / 1000 {
        row.push_label(&format!("{number:01000}")).unwrap();
    }
    let rest = MAX_TEXT - row.view().text.len();
    row.raw(&vec![0x1B; rest]).unwrap();
    assert_eq!(row.raw(b"x"), Err(Refusal::ResultOverLimit));
    assert_eq!(row.push_label("x"), Err(Refusal::ResultOverLimit));
    assert_eq!(row.push_label(""), Ok(()));
    assert_eq!(row.view().text.len(), MAX_TEXT);
}

/// A layout call lengthens all four buffers of a recorder that had none, up to the limits.
#[test]
fn results_up_to_the_limits() {
    let mut row = FormatRecorder::new();
    let line = "a\n".repeat(MAX_ENTRIES / 2);
    row.write_data(line.as_bytes()).unwrap();
    let mut prefix = FormatRecorder::new();
    // Raw sequences, each of which is stored: equal labels are stored once.
    prefix.raw(&[b'x'; MAX_TEXT / (MAX_ENTRIES / 2)]).unwrap();
    prefix.pop_label().unwrap();
    let mut out = FormatRecorder::new();
    write_indented(&mut out, &row, &prefix).unwrap();
    assert_eq!((out.view().entries.len(), out.view().text.len()), (4 * MAX_ENTRIES, MAX_TEXT));
    assert_eq!(out.data(), line.as_bytes());
    row.write_data(b"a").unwrap();
    assert_eq!(write_indented(&mut out, &row, &prefix), Err(Refusal::ResultOverLimit));
    assert_eq!(out.view().text.len(), MAX_TEXT);

    // The longest label before as many lines.
    let (rows, mut prefix) = (FormatRecorder::with_data(line.as_bytes()).unwrap(), FormatRecorder::new());
    prefix.write_labeled(&"x".repeat(MAX_TEXT), "").unwrap();
    let mut out = FormatRecorder::new();
    write_indented(&mut out, &rows, &prefix).unwrap();
    assert_eq!((out.view().entries.len(), out.view().text.len()), (4 * MAX_ENTRIES, MAX_TEXT));

    let fill = FormatRecorder::with_data(".").unwrap();
    write_padded_end(&mut out, &FormatRecorder::new(), &fill, MAX_DATA).unwrap();
    assert_eq!(out.data(), vec![b'.'; MAX_DATA]);
    assert_eq!(write_padded_end(&mut out, &FormatRecorder::new(), &fill, MAX_DATA + 1), Err(Refusal::ResultOverLimit));
    assert_eq!(out.data(), vec![b'.'; MAX_DATA]);
}

/// Spaces up to the limit of data, and one more.
#[test]
fn spaces_up_to_the_limit() {
    let mut row = FormatRecorder::with_data(vec![b'\t'; MAX_DATA / 64]).unwrap();
    let mut out = FormatRecorder::new();
    write_tabs_expanded(&mut out, &row, 64).unwrap();
    assert_eq!(out.data(), vec![b' '; MAX_DATA]);
    row.write_data(b"a").unwrap();
    assert_eq!(write_tabs_expanded(&mut out, &row, 64), Err(Refusal::ResultOverLimit));
    assert_eq!(out.data(), vec![b' '; MAX_DATA]);
}

/// As many lines as a text can have.
#[test]
fn lines_up_to_their_limit() {
    let row = FormatRecorder::with_data(vec![b'\n'; MAX_DATA]).unwrap();
    let mut out = FormatRecorder::new();
    assert_eq!(write_wrapped(&mut out, &row, 1, true).unwrap().len(), MAX_DATA + 1);
    assert_eq!(out.data(), row.data());
    assert_eq!(wrap_bytes(row.data(), 1, true).unwrap().len(), MAX_DATA + 1);
}

/// What was grown is kept: the buffers stay where they are.
#[test]
fn buffers_are_kept() {
    let (row, fill) = (FormatRecorder::with_data("fir").unwrap(), FormatRecorder::with_data(".").unwrap());
    let mut out = FormatRecorder::new();
    write_padded_end(&mut out, &row, &fill, 1000).unwrap();
    let place = out.data().as_ptr();
    for width in (0..1000).rev() {
        write_padded_start(&mut out, &row, &fill, width).unwrap();
        assert_eq!((out.data().len(), out.data().as_ptr()), (width.max(3), place));
    }
}
