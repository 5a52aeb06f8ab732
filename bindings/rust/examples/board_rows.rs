//! A board row, recorded with its grades as labels, then truncated, padded and wrapped, by calls of their own and as a list of calls; each
//! result is printed with its labels, and the wrapped lines once more, right-aligned. Two rows of a ticket, whose tabs go to stops; they are
//! indented, and the indent is taken off. A row with a price, as the office and as the floor reads it. A line index of the ticket, extended
//! after a row. Cells of a page, cut in one call. A tally sheet. The same as `bindings/c/example.c`, which prints the same.
use ruszvedok::lent::{self, Buffers};
use ruszvedok::{run_layouts, tally_sheet, text_width, write_for_floor, write_for_office, write_indented, write_padded_centered, write_tabs_expanded};
use ruszvedok::{write_truncated_end, write_truncated_start, write_unindented, write_wrapped};
use ruszvedok::{Column, FormatOp, FormatRecorder, Layout, LineIndex, Refusal, TruncatedCells};

/// Prints the data with {label:..} around what is labelled.
fn print(title: &str, width: usize, row: &FormatRecorder) -> Result<(), Refusal> {
    let mut shown = FormatRecorder::new();
    row.replay_with(
        &mut shown,
        |shown, op| match op {
            FormatOp::PushLabel(label) => write!(shown, "{{{label}:"),
            FormatOp::PopLabel => write!(shown, "}}"),
            _ => Ok(()),
        },
        |shown, range| shown.write_data(&row.data()[range]),
    )?;
    println!("{title} {width}:\n{}", String::from_utf8_lossy(shown.data()));
    Ok(())
}

fn main() -> Result<(), Refusal> {
    let (mut row, mut rest, dot) = (FormatRecorder::new(), FormatRecorder::new(), FormatRecorder::with_data(".")?);
    write!(row, "oak {} ft ", 12)?;
    row.write_labeled("grade", "FAS")?;
    write!(row, ", 木材 {} ft ", 9)?;
    row.write_labeled("grade", "No. 1 Common")?;
    rest.write_labeled("rest", "..")?;
    print("row, width", text_width(row.data()), &row)?;

    let mut out = FormatRecorder::new();
    let width = write_truncated_end(&mut out, &row, &rest, 18)?;
    print("truncated, width", width, &out)?;
    let width = write_truncated_start(&mut out, &row, &rest, 18)?;
    print("truncated at its start, width", width, &out)?;
    write_padded_centered(&mut out, &row, &dot, 44)?;
    print("centered in", 44, &out)?;
    let lines: Vec<_> = write_wrapped(&mut out, &row, 12, false)?.collect();
    print("wrapped at 12, lines", lines.len(), &out)?;

    // Each line comes with its place in the row and its width, so nothing is measured again.
    println!("right-aligned in 12:");
    for line in lines {
        println!("{}{}", " ".repeat(12_usize.saturating_sub(line.width)), String::from_utf8_lossy(&row.data()[line.range()]));
    }

    // A list of calls, each on what the one before left.
    let layouts = [
        Layout::TruncateEnd { max_width: 18, ellipsis: &rest },
        Layout::PadCentered { min_width: 24, fill: &dot },
        Layout::Wrap { width: 12, break_words: false },
    ];
    let answers = run_layouts(&mut out, &row, &layouts)?;
    print("truncated, centered and wrapped, calls", answers.iter().flatten().count(), &out)?;

    // Columns count widths, so the second row lines up with the first.
    let mut ticket = FormatRecorder::with_data("oak\t12 ft")?;
    ticket.write_labeled("grade", "\tFAS")?;
    ticket.write_data("\n木材\t9 ft")?;
    ticket.write_labeled("grade", "\tNo. 1")?;
    write_tabs_expanded(&mut out, &ticket, 8)?;
    print("stops every", 8, &out)?;

    // A report has a mark before each row, and what is pasted back from it loses the mark.
    let (mut report, mark) = (FormatRecorder::new(), FormatRecorder::with_data("> ")?);
    write_indented(&mut report, &out, &mark)?;
    print("indented by", 2, &report)?;
    write_unindented(&mut out, &report, &mark)?;
    print("taken off again,", 2, &out)?;

    // Both read as many columns; what stands under the label is the office's alone.
    let mut priced = FormatRecorder::with_data("oak 12 ft ")?;
    priced.write_labeled("price", "980 円")?;
    write_for_office(&mut out, &priced, "price")?;
    print("for the office, width", text_width(out.data()), &out)?;
    write_for_floor(&mut out, &priced, "price")?;
    print("for the floor, width", text_width(out.data()), &out)?;

    // A console jumps to a row, and shows the row of a byte. The index is kept beside the data and extended after an append.
    let mut index = LineIndex::build(&ticket)?;
    ticket.write_data("\nfir\t16 ft")?;
    index.extend(&ticket)?;
    let (line, at) = (index.line_at(&ticket, 2)?, index.place_of(&ticket, 20)?);
    println!("line 2 of {}: bytes {} to {}", index.line_count(), line.start, line.end);
    println!("byte 20: line {}, byte column {}", at.line, at.column);

    // A page of cells: all are cut by one call. Each comes with its width, so nothing is measured again.
    let page = TruncatedCells::cut(["oak", "red spruce", "木材"], "..", 8)?;
    print!("{} cells cut to 8:\n|", page.len());
    page.texts().for_each(|(text, width)| print!("{}{}|", String::from_utf8_lossy(text), " ".repeat(8 - width)));
    println!();

    // A tally sheet: a row for each line, then the number of value lines and the sum of the column `boards`.
    let boards = "wood,boards,length\noak,12,9 ft\nwhite spruce,7,12 ft\n木材,30,9 ft\n";
    print!("a tally sheet:\n{}", tally_sheet(boards, &[Column::start(8), Column::end(6), Column::center(7)])?);

    // A recorder lengthens its buffers. Lent ones have the length they have: eight bytes are too few, and are left alone.
    let (mut few, mut entries, mut text) = ([0xEE; 8], [0; 64], [0; 128]);
    let buffers = Buffers { data: &mut few, entries: &mut entries, text: &mut text };
    if let Err(refusal) = lent::write_truncated_end(row.view(), rest.view(), 18, buffers) {
        let untouched = few.iter().filter(|byte| **byte == 0xEE).count();
        println!("a buffer of {} bytes: {refusal}, {untouched} bytes untouched", few.len());
    }
    Ok(())
}
