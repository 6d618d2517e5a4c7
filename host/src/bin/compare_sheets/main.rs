//! Compares the sheet entry and the program that prints reports with a reader and a scorer of this program's own.
//!
//! Both are written from the paper alone. The sheets are random sound ones, ones with every byte in the place of a
//! symbol, small ones with every change of one byte, damaged ones with one to three damages, so that it is the first
//! fault that is compared, and ones at the edges of what a sheet may be. The argument is the path of the program.

// The comparison of the table calls uses more of it.
#[allow(dead_code)]
#[path = "../common/brute.rs"]
mod brute;
mod by_labellings;
mod compare;
mod damage;
mod draft;
mod entry;
mod fault;
mod large;
mod program;
// The comparison of the table calls uses more of it.
#[allow(dead_code)]
#[path = "../common/random.rs"]
mod random;
mod reader;
mod report;
mod rows;
mod tally;
#[cfg(test)]
mod tests;
mod tree_text;

use std::env;
use std::process::ExitCode;

use compare::{shown, Comparison};
use entry::ENTRIES;
use program::Program;
use random::Random;
use tally::Tally;

const SEED: u64 = 7_340_113;
/// Of a small sheet all columns are worked.
const ALL: usize = usize::MAX;

/// The paper's sheet.
const PAPER: &[u8] = b"names 3\na\nb\nc\ncolumns 2\nAC\nAT\nGT\ncosts 0\ntree 1\n((a,b),c);\n";
/// Another small one, with a cost table.
const SMALL: &[u8] =
    b"names 2\nx1\ny\ncolumns 1\nR\n-\ncosts 4\n0 1 2 3\n1 0 3 1\n10 1 0 7\n999 2 3 0\ntree 1\n(y,x1);\n";

/// How many random sheets are made, and one in how many of them the program gets too.
struct Amounts {
    sound: usize,
    sound_printed: usize,
    damaged: usize,
    damaged_printed: usize,
    /// Sheets that are changed in every byte.
    changed: &'static [&'static [u8]],
    /// Columns that are worked of a sheet at the edges.
    columns: usize,
}

const AMOUNTS: Amounts = Amounts {
    sound: 3_000,
    sound_printed: 10,
    damaged: 24_000,
    damaged_printed: 16,
    changed: &[PAPER, SMALL],
    columns: 8,
};

fn main() -> ExitCode {
    let Some(path) = env::args_os().nth(1) else {
        println!("compare_sheets: the argument is missing: the path of the program that prints reports");
        return ExitCode::FAILURE;
    };
    let program = Program { path: path.into() };
    let mut comparison =
        Comparison { entries: ENTRIES, program: &program, random: Random(SEED), tally: Tally::default() };
    println!("compare_sheets: seed {SEED}");
    match run(&mut comparison, &AMOUNTS) {
        Err(difference) => {
            println!("{difference}\ncompare_sheets: 1 difference");
            ExitCode::FAILURE
        }
        Ok(unseen) => end(&comparison, unseen),
    }
}

/// Prints what was compared.
fn end(comparison: &Comparison, unseen: Vec<String>) -> ExitCode {
    comparison.tally.print();
    if !unseen.is_empty() {
        println!("compare_sheets: never came up: {}", unseen.join(", "));
        return ExitCode::FAILURE;
    }
    let calls = comparison.entries.len() * comparison.tally.all_calls();
    println!("compare_sheets: {calls} calls and {} reports, 0 differences", comparison.tally.all_reports());
    ExitCode::SUCCESS
}

/// Compares all sheets; gives what should have come up and did not.
fn run(comparison: &mut Comparison, amounts: &Amounts) -> Result<Vec<String>, String> {
    sound_sheets(comparison, amounts)?;
    symbol_bytes(comparison)?;
    changed_bytes(comparison, amounts)?;
    let undone = damaged_sheets(comparison, amounts)?;
    large_sheets(comparison, amounts)?;
    Ok([comparison.tally.unseen(), undone].concat())
}

/// Compares the entries on a sheet, and the program too if that is asked.
fn compare(comparison: &mut Comparison, what: &str, sheet: &[u8], printed: bool) -> Result<(), String> {
    compare_some(comparison, what, sheet, printed, ALL)
}

/// The same, of only so many columns.
fn compare_some(
    comparison: &mut Comparison,
    what: &str,
    sheet: &[u8],
    printed: bool,
    columns: usize,
) -> Result<(), String> {
    let mut compared = comparison.entries(sheet, columns);
    if printed && compared.is_ok() {
        compared = comparison.program(sheet);
    }
    compared.map_err(|difference| format!("{difference}\nin {what}: {}", shown(sheet)))
}

fn sound_sheets(comparison: &mut Comparison, amounts: &Amounts) -> Result<(), String> {
    compare(comparison, "the paper's sheet", PAPER, true)?;
    for i in 0..amounts.sound {
        let sheet = draft::sound(&mut comparison.random).text();
        if let Err(fault) = reader::read(&sheet) {
            return Err(format!("sound sheet {i} is not sound, {fault:?}: {}", shown(&sheet)));
        }
        compare(comparison, &format!("sound sheet {i}"), &sheet, i % amounts.sound_printed == 0)?;
    }
    println!("{} random sound sheets", amounts.sound);
    Ok(())
}

/// Every byte as the only symbol of a sheet, and as one among others.
fn symbol_bytes(comparison: &mut Comparison) -> Result<(), String> {
    let at = PAPER.windows(2).position(|two| two == b"AT").expect("the paper's second cell line");
    for byte in 0..=255 {
        let alone = [b"names 1\na\ncolumns 1\n", &[byte][..], b"\ncosts 0\ntree 1\na;\n"].concat();
        let mut among = PAPER.to_vec();
        among[at] = byte;
        for sheet in [alone, among] {
            compare(comparison, &format!("byte {byte} as a symbol"), &sheet, true)?;
        }
    }
    println!("each of 256 bytes as a symbol, alone and among others");
    Ok(())
}

/// Every byte of a small sheet replaced by every other, every byte inserted everywhere, every byte deleted, and the
/// sheet cut off everywhere.
fn changed_bytes(comparison: &mut Comparison, amounts: &Amounts) -> Result<(), String> {
    let mut changed = 0;
    for &sheet in amounts.changed {
        for at in 0..=sheet.len() {
            let (front, rest) = sheet.split_at(at);
            let behind = rest.get(1..).unwrap_or_default();
            let mut sheets = vec![front.to_vec(), [front, behind].concat()];
            for byte in 0..=255 {
                sheets.push([front, &[byte], behind].concat());
                sheets.push([front, &[byte], rest].concat());
            }
            changed += sheets.len();
            for sheet in sheets {
                compare(comparison, "a sheet changed in one byte", &sheet, false)?;
            }
        }
    }
    println!("{changed} changes of one byte, to {} sheets", amounts.changed.len());
    Ok(())
}

/// Damaged sheets; gives the kinds of damage that were never done.
fn damaged_sheets(comparison: &mut Comparison, amounts: &Amounts) -> Result<Vec<String>, String> {
    let kinds = damage::kinds();
    let mut done = Vec::new();
    for i in 0..amounts.damaged {
        let draft = draft::sound(&mut comparison.random);
        let (sheet, kinds_done) = damage::damaged(&draft, &kinds, &mut comparison.random);
        done.extend(kinds_done);
        compare(comparison, &format!("damaged sheet {i}"), &sheet, i % amounts.damaged_printed == 0)?;
    }
    let times = |kind: usize| done.iter().filter(|&&other| other == kind).count();
    let rarest = (0..kinds.len()).map(times).min().unwrap_or(0);
    println!(
        "{} damaged sheets: {} damages of {} kinds, each kind at least {rarest} times",
        amounts.damaged,
        done.len(),
        kinds.len()
    );
    let undone = (0..kinds.len()).filter(|&kind| times(kind) == 0);
    Ok(undone.map(|kind| format!("the damage `{}`", kinds[kind].0)).collect())
}

fn large_sheets(comparison: &mut Comparison, amounts: &Amounts) -> Result<(), String> {
    let sheets = large::large(&mut comparison.random);
    for (what, sheet) in &sheets {
        compare_some(comparison, what, sheet, true, amounts.columns)?;
    }
    println!("{} sheets at the edges", sheets.len());
    Ok(())
}
