//! How long it takes to record 2,000 rows with a labelled grade each, by the recorder and by plain pushes onto vectors.
//! `cargo run --release --example recording_speed`: the least time of 200 rounds each, and what it is over the plain pushes.
use std::hint::black_box;
use std::time::{Duration, Instant};

use ruszvedok::{FormatRecorder, Refusal};

const ROWS: usize = 2_000;

/// The three slices as vectors, without a limit, for one label: its text is stored once.
#[derive(Default)]
struct Vectors {
    data: Vec<u8>,
    entries: Vec<u32>,
    text: Vec<u8>,
}

impl Vectors {
    fn entry(&mut self, kind: u32, text: &str) {
        self.entries.extend_from_slice(&[self.data.len() as u32, kind, 0, text.len() as u32]);
        if self.text.is_empty() {
            self.text.extend_from_slice(text.as_bytes());
        }
    }
}

fn pushed_plain() -> Vectors {
    let mut rows = Vectors::default();
    for _ in 0..ROWS {
        rows.data.extend_from_slice(black_box(b"oak, rough sawn, 12 ft "));
        rows.entry(0, black_box("grade"));
        rows.data.extend_from_slice(black_box(b"No. 1C"));
        rows.entry(1, "");
        rows.data.extend_from_slice(black_box(b"\n"));
    }
    rows
}

fn pushed() -> Result<FormatRecorder, Refusal> {
    let mut rows = FormatRecorder::new();
    for _ in 0..ROWS {
        rows.write_data(black_box(b"oak, rough sawn, 12 ft "))?;
        rows.push_label(black_box("grade"))?;
        rows.write_data(black_box(b"No. 1C"))?;
        rows.pop_label()?;
        rows.write_data(black_box(b"\n"))?;
    }
    Ok(rows)
}

fn labeled() -> Result<FormatRecorder, Refusal> {
    let mut rows = FormatRecorder::new();
    for _ in 0..ROWS {
        rows.write_data(black_box(b"oak, rough sawn, 12 ft "))?;
        rows.write_labeled(black_box("grade"), black_box(b"No. 1C"))?;
        rows.write_data(black_box(b"\n"))?;
    }
    Ok(rows)
}

fn formatted_plain() -> Vectors {
    use std::io::Write as _;
    let mut rows = Vectors::default();
    for _ in 0..ROWS {
        write!(rows.data, "{}, rough sawn, {:>2} ft ", black_box("oak"), black_box(12)).unwrap();
        rows.entry(0, black_box("grade"));
        write!(rows.data, "No. {}C", black_box(1)).unwrap();
        rows.entry(1, "");
        rows.data.extend_from_slice(b"\n");
    }
    rows
}

fn formatted() -> Result<FormatRecorder, Refusal> {
    let mut rows = FormatRecorder::new();
    for _ in 0..ROWS {
        write!(rows, "{}, rough sawn, {:>2} ft ", black_box("oak"), black_box(12))?;
        rows.labeled(black_box("grade"), |row| write!(row, "No. {}C", black_box(1)))?;
        rows.write_data(b"\n")?;
    }
    Ok(rows)
}

/// The least time of many rounds.
fn least<T>(mut round: impl FnMut() -> T) -> Duration {
    let timed = |_| {
        let start = Instant::now();
        black_box(round());
        start.elapsed()
    };
    (0..200).map(timed).min().unwrap_or_default()
}

fn main() -> Result<(), Refusal> {
    for (name, plain, made) in [("pushed", pushed_plain(), pushed()?), ("labeled", pushed_plain(), labeled()?), ("formatted", formatted_plain(), formatted()?)] {
        let view = made.view();
        assert!(view.data == plain.data && view.entries == plain.entries && view.text == plain.text, "{name}: other recordings");
    }
    println!("{ROWS} rows, {} bytes, {} entries", pushed()?.data().len(), 2 * ROWS);
    let report = |name: &str, plain: Duration, made: Duration| {
        println!("{name:<10} plain {:>5} us, recorder {:>5} us: {:.2} times", plain.as_micros(), made.as_micros(), made.as_secs_f64() / plain.as_secs_f64());
    };
    let plain = least(pushed_plain);
    report("pushed", plain, least(pushed));
    report("labeled", plain, least(labeled));
    report("formatted", least(formatted_plain), least(formatted));
    Ok(())
}
