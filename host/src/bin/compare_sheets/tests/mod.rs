//! Tests of this program's own reader, scorer, sheets and comparison. None needs the library.

mod comparison;
mod examples;
mod pages;
mod sheet;
mod tree;

use crate::reader::read;
use crate::report::report;

/// A sheet's lines, each with its line end.
fn text(lines: &[&str]) -> Vec<u8> {
    lines.iter().flat_map(|line| [line.as_bytes(), b"\n"].concat()).collect()
}

/// The lines of the paper's sheet.
fn paper() -> Vec<&'static str> {
    let text = std::str::from_utf8(crate::PAPER).expect("the paper's sheet is text");
    text.lines().collect()
}

/// The paper's sheet with a line changed.
fn changed(number: usize, line: &str) -> Vec<&str> {
    let mut lines = paper();
    lines[number - 1] = line;
    lines
}

/// The number and the line for which a sheet is refused; nothing if it is not.
fn refusal(sheet: &[u8]) -> Option<(u64, u64)> {
    read(sheet).err().map(|fault| (fault.number(), fault.line))
}

/// A sheet of these lines is refused with this number and line.
#[track_caller]
fn refused(lines: &[&str], number: u64, line: u64) {
    assert_eq!(refusal(&text(lines)), Some((number, line)), "{lines:?}");
}

/// A sheet of these lines is read.
#[track_caller]
fn sound(lines: &[&str]) {
    assert_eq!(refusal(&text(lines)), None, "{lines:?}");
}

/// The lines of the report of a sheet.
fn printed(lines: &[&str]) -> Vec<String> {
    report(&text(lines)).lines().map(str::to_string).collect()
}
