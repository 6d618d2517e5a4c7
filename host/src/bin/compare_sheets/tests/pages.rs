//! The page for curators and the example sheets say what this program's reader and scorer say.

use std::fs;
use std::path::{Path, PathBuf};

use crate::reader::bases;
use crate::report::report;

fn repository() -> PathBuf {
    Path::new(env!("CARGO_MANIFEST_DIR")).join("..")
}

fn page() -> String {
    fs::read_to_string(repository().join("docs").join("FORMAT.md")).expect("the page for curators")
}

/// A piece of the page.
enum Piece {
    /// The text of a block.
    Block(String),
    /// The cells of a table's row.
    Row(Vec<String>),
}

fn pieces(page: &str) -> Vec<Piece> {
    let mut pieces = Vec::new();
    for (i, text) in page.split("```").enumerate() {
        if i % 2 == 1 {
            pieces.push(Piece::Block(text.trim_start_matches('\n').to_string()));
            continue;
        }
        for row in text.lines().filter_map(|line| line.strip_prefix("| ")?.strip_suffix('|')) {
            pieces.push(Piece::Row(row.split('|').map(|cell| cell.trim().to_string()).collect()));
        }
    }
    pieces
}

/// The text between two backticks.
fn quoted(cell: &str) -> Option<&str> {
    cell.strip_prefix('`')?.strip_suffix('`')
}

/// A sheet with a line changed, left out or put behind it, as a row of the page says; nothing if it has not that line.
fn changed(sheet: &str, number: usize, above: &str, to: &str) -> Option<String> {
    let lines: Vec<&str> = sheet.lines().collect();
    let fits = match quoted(above) {
        Some(line) => lines.get(number - 1) == Some(&line),
        None => number == lines.len() + 1 && above == "(nothing)",
    };
    let line = match to {
        "(left out)" => None,
        "(an empty line)" => Some(""),
        text => Some(quoted(text).expect("the changed line is quoted")),
    };
    let (front, rest) = (lines.iter().take(number - 1), lines.iter().skip(number));
    let changed = front.copied().chain(line).chain(rest.copied());
    fits.then(|| changed.map(|line| format!("{line}\n")).collect())
}

#[test]
fn the_page_for_curators_says_what_is_printed() {
    let (mut sheets, mut reports, mut changes): (Vec<String>, _, _) = (Vec::new(), 0, 0);
    for piece in pieces(&page()) {
        match piece {
            Piece::Block(text) if text.starts_with("names ") => sheets.push(text),
            Piece::Block(text) => {
                assert_eq!(report(sheets[reports].as_bytes()), text);
                reports += 1;
            }
            Piece::Row(row) => {
                let (Ok(number), 5) = (row[0].parse(), row.len()) else { continue };
                let sheet = sheets.iter().find_map(|sheet| changed(sheet, number, &row[1], &row[2]));
                let sheet = sheet.unwrap_or_else(|| panic!("no sheet has the line of {row:?}"));
                assert_eq!(report(sheet.as_bytes()), format!("{}\n", quoted(&row[3]).unwrap()), "{row:?}");
                changes += 1;
            }
        }
    }
    assert!(reports == sheets.len() && changes >= 45, "{reports} reports, {changes} changes");
}

#[test]
fn the_page_for_curators_lists_the_18_symbols() {
    let mut listed = Vec::new();
    for piece in pieces(&page()) {
        let Piece::Row(row) = piece else { continue };
        let (Some(symbol), 6) = (quoted(&row[0]), row.len()) else { continue };
        listed.push(symbol.as_bytes()[0]);
        assert_eq!(bases(listed[listed.len() - 1]), Some(row[1..5].concat().as_str()), "{row:?}");
    }
    let symbols: Vec<u8> = (0..=255).filter(|&byte| bases(byte).is_some()).collect();
    listed.sort();
    assert_eq!((listed, symbols.len()), (symbols, 18));
}

/// The files of a folder below `sheets` with this ending, each with its partner of another ending.
fn sheets(folder: &str, partner: &str) -> Vec<(PathBuf, Vec<u8>, String)> {
    let files = fs::read_dir(repository().join("sheets").join(folder)).expect("the folder of sheets");
    let paths = files.map(|file| file.expect("a file").path());
    let paths = paths.filter(|path| path.extension().is_some_and(|ending| ending == "sheet"));
    let both = |path: PathBuf| {
        let sheet = fs::read(&path).expect("a sheet");
        let printed = fs::read_to_string(path.with_extension(partner)).expect("what is printed of it");
        (path, sheet, printed)
    };
    paths.map(both).collect()
}

#[test]
fn the_example_sheets_print_their_reports() {
    let sheets = sheets("", "report");
    for (path, sheet, printed) in &sheets {
        assert_eq!(&report(sheet), printed, "{}", path.display());
        assert!(printed.starts_with("columns "), "{}", path.display());
    }
    assert!(sheets.iter().any(|(path, sheet, _)| path.ends_with("paper.sheet") && sheet == crate::PAPER));
    assert!(sheets.len() >= 10);
}

#[test]
fn the_refused_sheets_print_their_one_line() {
    let sheets = sheets("refused", "expected");
    for (path, sheet, printed) in &sheets {
        assert_eq!(&report(sheet), printed, "{}", path.display());
        assert!(printed.starts_with("refused "), "{}", path.display());
    }
    assert!(sheets.len() >= 20);
}
