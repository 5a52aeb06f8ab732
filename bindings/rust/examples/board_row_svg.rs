//! Prints a picture (SVG) of a board row as recorded and as the library leaves it: cut, padded and wrapped. Labels are colours.
//! `docs/board-row.svg` is what it prints.
use std::fmt::Write as _;

use ruszvedok::{text_width, write_padded_end, write_truncated_end, write_wrapped, FormatRecorder, Refusal};

/// The size of a column and of a line, the left edge of the text, and the size of the whole.
const COLUMN: usize = 10;
const LINE: usize = 26;
const LEFT: usize = 130;
const WIDTH: usize = 620;

/// A label's colours: of its text, and behind it.
fn colours(label: Option<&&str>) -> (&'static str, Option<&'static str>) {
    match label {
        Some(&"species") => ("#7a3e00", Some("#fbe3c4")),
        Some(&"grade") => ("#0b5d1e", Some("#cdeccf")),
        Some(&"rest") => ("#a01c1c", Some("#f8d4d4")),
        _ => ("#333333", None),
    }
}

struct Picture {
    svg: String,
    /// The upper edge of the next line.
    top: usize,
}

impl Picture {
    /// A recording under its title; a dashed line stands behind the last column that it may take.
    fn row(&mut self, title: &str, width: Option<usize>, row: &FormatRecorder) {
        let (svg, first) = (&mut self.svg, self.top);
        writeln!(svg, r##"<text x="14" y="{}" fill="#666666" font-size="13">{title}</text>"##, first + 18).unwrap();
        let mut column = 0;
        for span in row.spans() {
            let (colour, behind) = colours(span.labels.last());
            for (k, piece) in span.text().split('\n').enumerate() {
                if k > 0 {
                    (column, self.top) = (0, self.top + LINE);
                }
                let (x, columns) = (LEFT + column * COLUMN, text_width(piece.as_bytes()));
                if columns == 0 {
                    continue;
                }
                let size = columns * COLUMN;
                if let Some(behind) = behind {
                    writeln!(svg, r#"<rect x="{x}" y="{}" width="{size}" height="22" rx="4" fill="{behind}"/>"#, self.top + 2).unwrap();
                }
                // Word by word, with a place for each character: no reader has to keep spaces or to know a font's widths.
                for word in piece.split_inclusive(' ') {
                    let mut places = String::new();
                    for char in word.chars() {
                        write!(places, "{} ", LEFT + column * COLUMN).unwrap();
                        column += text_width(char.to_string().as_bytes());
                    }
                    let text = word.trim_end().replace('&', "&amp;").replace('<', "&lt;");
                    if !text.is_empty() {
                        writeln!(svg, r#"<text y="{}" fill="{colour}" x="{}">{text}</text>"#, self.top + 18, places.trim_end()).unwrap();
                    }
                }
            }
        }
        self.top += LINE;
        if let Some(width) = width {
            let (x, y) = (LEFT + width * COLUMN, self.top);
            writeln!(svg, r##"<line x1="{x}" y1="{first}" x2="{x}" y2="{y}" stroke="#999999" stroke-dasharray="3 3"/>"##).unwrap();
        }
        self.top += LINE / 2;
    }
}

fn main() -> Result<(), Refusal> {
    let (mut row, mut rest, mut out) = (FormatRecorder::new(), FormatRecorder::new(), FormatRecorder::new());
    row.write_labeled("species", "white oak")?;
    write!(row, " 12 ft, ")?;
    row.write_labeled("grade", "No. 1 Common")?;
    write!(row, ", 木材")?;
    rest.write_labeled("rest", "..")?;

    let mut picture = Picture { svg: String::new(), top: 14 };
    picture.row("recorded", None, &row);
    write_truncated_end(&mut out, &row, &rest, 26)?;
    picture.row("cut to 26", Some(26), &out);
    write_padded_end(&mut out, &row, &FormatRecorder::with_data(".")?, 46)?;
    picture.row("padded to 46", Some(46), &out);
    write_wrapped(&mut out, &row, 14, false)?;
    picture.row("wrapped at 14", Some(14), &out);

    let height = picture.top;
    println!(r#"<svg xmlns="http://www.w3.org/2000/svg" width="{WIDTH}" height="{height}" viewBox="0 0 {WIDTH} {height}" font-family="monospace" font-size="16">"#);
    println!(r##"<title>A board row cut, padded and wrapped: its labels, as colours, stay on their bytes</title>"##);
    println!(r##"<rect width="{WIDTH}" height="{height}" rx="8" fill="#ffffff" stroke="#dddddd"/>"##);
    println!("{}</svg>", picture.svg);
    Ok(())
}
