//! Times the library against the Rust originals: `bench [--rounds N] [--one] [--pictures] [CASE...]`; or `bench --count [CASE...]`, which `count` runs.
mod cases;

use std::process::ExitCode;

use bench::inputs::{Input, KINDS, Kind, PICTURES, SHEET_KINDS};
use bench::timing;
use cases::{CASES, CELLS_CASES, Case, LINE_INDEX_CASES, TALLY_CASES};

fn table(case: &Case, kinds: &[(Kind, &str)], rounds: usize, many: usize) -> Result<(), String> {
    println!("\n### {}\n", case.name);
    let heads: Vec<_> = case.sizes.iter().map(|(_, name)| *name).collect();
    println!("| input | {} |\n|---|{}", heads.join(" | "), "---|".repeat(heads.len()));
    for &(kind, name) in kinds {
        let mut row = format!("| {name} |");
        for &(size, size_name) in case.sizes {
            let pair = (case.sides)(&Input::new(kind, size, many)).map_err(|e| format!("{}, {name}, {size_name}: {e}", case.name))?;
            let times = timing::measure(&pair, rounds);
            row += &format!(" **{:.2}** ({:.2} / {:.2}) |", times.ratio(), times.rattle / size as f64, times.rust / size as f64);
        }
        println!("{row}");
    }
    Ok(())
}

/// Not timed: the library's call twice on each of 64 short ASCII texts, once as it is compared and once as it would be timed.
fn once(case: &Case) -> Result<(), String> {
    (case.sides)(&Input::new(Kind::Ascii, 80, 64)).map(|pair| pair.rattle_once())
}

fn main() -> ExitCode {
    let (mut rounds, mut many, mut count, mut pictures, mut names) = (30, 64, false, false, vec![]);
    let mut words = std::env::args().skip(1);
    while let Some(word) = words.next() {
        match word.as_str() {
            "--rounds" => rounds = words.next().and_then(|n| n.parse().ok()).filter(|n| *n > 0).expect("--rounds N"),
            "--one" => many = 1,
            "--count" => count = true,
            "--pictures" => pictures = true,
            _ => names.push(word),
        }
    }
    // Each case with the kinds of its inputs.
    let of = |kinds: &'static [(Kind, &'static str)]| move |case: &'static Case| (case, if pictures { &PICTURES } else { kinds });
    let cases = || CASES.iter().chain(LINE_INDEX_CASES).chain(CELLS_CASES).map(of(&KINDS)).chain(TALLY_CASES.iter().map(of(&SHEET_KINDS)));
    if let Some(name) = names.iter().find(|name| cases().all(|(case, _)| case.name != **name)) {
        eprintln!("bench: no case {name}");
        return ExitCode::from(2);
    }
    if !count {
        println!("Time of Rattle as a part of Rust's, below 1 is faster (in brackets: Rattle / Rust, nanoseconds a byte).");
        println!("The shortest of {rounds} rounds in turns; short inputs are {many} text(s) in a row.");
    }
    for (case, kinds) in cases().filter(|(case, _)| names.is_empty() || names.iter().any(|name| name == case.name)) {
        let done = if count { once(case) } else { table(case, kinds, rounds, many) };
        if let Err(difference) = done {
            eprintln!("bench: the sides differ: {difference}");
            return ExitCode::FAILURE;
        }
    }
    ExitCode::SUCCESS
}
