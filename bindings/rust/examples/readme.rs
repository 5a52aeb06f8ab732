//! A board row with its grade as a label, cut to 18 columns and wrapped at 10; the label stays on its bytes.
use ruszvedok::{write_truncated_end, write_wrapped, FormatRecorder, Refusal};

fn show(row: &FormatRecorder) {
    for span in row.spans() {
        match span.labels.last() {
            Some(label) => print!("{{{label}:{}}}", span.text()),
            None => print!("{}", span.text()),
        }
    }
    println!();
}

fn main() -> Result<(), Refusal> {
    let mut row = FormatRecorder::new();
    write!(row, "oak {} ft ", 12)?;
    row.write_labeled("grade", "No. 1 Common")?;

    let mut out = FormatRecorder::new();
    write_truncated_end(&mut out, &row, &"..".parse()?, 18)?;
    show(&out);
    write_wrapped(&mut out, &row, 10, false)?;
    show(&out);
    Ok(())
}
