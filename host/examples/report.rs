//! Prints the report of a sheet, asking the sheet entry for one column after the other.
//!
//!     cargo run --example report -- ../sheets/paper.sheet
//!
//! It prints what the program `report` prints. The entry reads the sheet anew for each column, so that the program is
//! the better choice for whole sheets of many columns.

use std::process::ExitCode;

use fernijster::{column, Refusal, LONGEST_LINE};

fn main() -> ExitCode {
    let Some(path) = std::env::args_os().nth(1) else {
        eprintln!("report: the argument is missing: the path of a sheet");
        return ExitCode::FAILURE;
    };
    let sheet = match std::fs::read(&path) {
        Ok(sheet) => sheet,
        Err(error) => {
            eprintln!("report: {}: {error}", path.to_string_lossy());
            return ExitCode::FAILURE;
        }
    };
    print(&sheet)
}

/// Prints the report, or the one line of a refused sheet with the reason in words on standard error.
fn print(sheet: &[u8]) -> ExitCode {
    match lines(sheet) {
        Ok(lines) => {
            println!("columns {}", lines.len());
            lines.iter().for_each(|line| println!("{line}"));
            println!("total {}", lines.iter().map(|line| score(line)).sum::<u64>());
            ExitCode::SUCCESS
        }
        Err(refusal) => {
            println!("refused {} {}", refusal.number(), line_of(refusal));
            eprintln!("{refusal}");
            ExitCode::FAILURE
        }
    }
}

/// The lines of all columns: the entry is asked for one after the other, until there is none.
fn lines(sheet: &[u8]) -> Result<Vec<String>, Refusal> {
    let mut lines = Vec::new();
    let mut out = [0; LONGEST_LINE];
    loop {
        match column(sheet, lines.len() as u64, &mut out) {
            Ok(written) => lines.push(String::from_utf8_lossy(&out[..written]).into_owned()),
            Err(Refusal::Which) => return Ok(lines),
            Err(refusal) => return Err(refusal),
        }
    }
}

/// The score that a column's line states, its second word.
fn score(line: &str) -> u64 {
    line.split(' ').nth(1).and_then(|word| word.parse().ok()).expect("a column's line has a score")
}

/// The line that a refusal of a sheet carries.
fn line_of(refusal: Refusal) -> u64 {
    match refusal {
        Refusal::Sheet { line } | Refusal::Symbol { line } | Refusal::TreeText { line } => line,
        _ => 0,
    }
}
