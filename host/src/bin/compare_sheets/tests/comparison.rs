//! The comparison itself: entries that keep the rules pass it, and entries that break one of them do not.

use std::io;

use crate::compare::Comparison;
use crate::entry::Entry;
use crate::program::Printer;
use crate::random::Random;
use crate::reader::read;
use crate::report::{line, report};
use crate::rows::work;
use crate::tally::Tally;
use crate::{by_labellings, draft, run, Amounts, PAPER, SMALL};

/// An entry from this program's reader and scorer.
fn model(sheet: &[u8], column: u64, out: &mut [u8]) -> u64 {
    let sheet = match read(sheet) {
        Ok(sheet) => sheet,
        Err(fault) => return fault.line << 8 | fault.number(),
    };
    if column >= sheet.columns as u64 {
        return 6;
    }
    let column = column as usize;
    let line = line(&sheet, column, &work(&sheet, column));
    if out.len() < line.len() {
        return 8;
    }
    out[..line.len()].copy_from_slice(line.as_bytes());
    (line.len() as u64) << 8
}

/// A program from the same.
struct Model;

impl Printer for Model {
    fn print(&self, sheet: &[u8]) -> io::Result<Vec<u8>> {
        Ok(report(sheet).into_bytes())
    }
}

/// A program that prints the same of every sheet.
struct Constant;

impl Printer for Constant {
    fn print(&self, _: &[u8]) -> io::Result<Vec<u8>> {
        Ok(b"refused 9 1\n".to_vec())
    }
}

const FEW: Amounts =
    Amounts { sound: 100, sound_printed: 4, damaged: 6_000, damaged_printed: 8, changed: &[PAPER], columns: 2 };

fn compared(entry: Entry, program: &dyn Printer) -> Result<Vec<String>, String> {
    let entries = [("entry", entry)];
    let mut comparison = Comparison { entries: &entries, program, random: Random(1), tally: Tally::default() };
    run(&mut comparison, &FEW)
}

#[test]
fn what_keeps_the_rules_passes_and_everything_comes_up() {
    assert_eq!(compared(model, &Model), Ok(Vec::new()));
}

#[test]
fn a_program_that_prints_the_same_of_every_sheet_is_found() {
    assert!(compared(model, &Constant).is_err());
}

#[test]
fn which_and_room_carry_nothing_and_the_room_needed_is_the_line_without_its_end() {
    let mut out = [0; 13];
    assert_eq!(model(PAPER, 0, &mut out), 13 << 8);
    assert_eq!(&out, b"0 1 1 4 AAAGA");
    assert_eq!(model(PAPER, 0, &mut out[..12]), 8);
    assert_eq!(model(PAPER, 2, &mut []), 6);
    assert_eq!(model(&PAPER[1..], 2, &mut []), 1 << 8 | 9);
}

/// Each of these breaks one rule.
#[test]
fn entries_that_break_a_rule_are_found() {
    let wrong: [(&str, Entry); 15] = [
        ("always refuses", |_, _, _| 1 << 8 | 9),
        ("always done, writes nothing", |_, _, _| 0),
        ("a bit above those that carry something", |sheet, column, out| model(sheet, column, out) | 1 << 32),
        ("the highest bit", |sheet, column, out| model(sheet, column, out) | 1 << 63),
        ("writes when refused", |sheet, column, out| {
            let word = model(sheet, column, out);
            if word & 0xff != 0 && !out.is_empty() {
                out[0] = 0;
            }
            word
        }),
        ("writes a line end behind the line", |sheet, column, out| {
            let word = model(sheet, column, out);
            if let (0, Some(byte)) = (word & 0xff, out.get_mut((word >> 8) as usize)) {
                *byte = b'\n';
            }
            word
        }),
        ("wants one byte more", |sheet, column, out| match model(sheet, column, &mut out.to_vec()) {
            word if word & 0xff == 0 && word >> 8 == out.len() as u64 => 8,
            _ => model(sheet, column, out),
        }),
        ("asks for room before the column", |sheet, column, out| match model(sheet, column, out) {
            6 if out.is_empty() => 8,
            word => word,
        }),
        ("asks for the column before the sheet", |sheet, column, out| match model(sheet, column, out) {
            word if word & 0xff > 8 && column > 65_535 => 6,
            word => word,
        }),
        ("cuts the column's number", |sheet, column, out| model(sheet, column & 0xffff_ffff, out)),
        ("carries a line with ROOM", |sheet, column, out| match model(sheet, column, out) {
            8 => 1 << 8 | 8,
            word => word,
        }),
        ("carries a line with WHICH", |sheet, column, out| match model(sheet, column, out) {
            6 => 1 << 8 | 6,
            word => word,
        }),
        ("works column 0 for every column", |sheet, column, out| {
            let word = model(sheet, 0, out);
            let columns = read(sheet).map_or(0, |sheet| sheet.columns as u64);
            if word & 0xff == 0 && column >= columns {
                return 6;
            }
            if let (0, Some(digit)) = (word & 0xff, out.first_mut()) {
                *digit = b'0' + column as u8 % 10;
            }
            word
        }),
        ("reads an unlisted byte as N", |sheet, column, out| match model(sheet, column, out) {
            word if word & 0xff == 10 => {
                let mended: Vec<u8> = sheet.iter().map(|&byte| if byte == b'J' { b'N' } else { byte }).collect();
                model(&mended, column, out)
            }
            word => word,
        }),
        ("forgives a missing last line end", |sheet, column, out| match model(sheet, column, out) {
            word if word & 0xff == 9 => model(&[sheet, b"\n"].concat(), column, out),
            word => word,
        }),
    ];
    for (what, entry) in wrong {
        assert!(compared(entry, &Model).is_err(), "not found: {what}");
    }
}

#[test]
fn the_two_scorers_agree_on_random_sheets() {
    let mut random = Random(2);
    let mut tried = 0;
    for _ in 0..300 {
        let sheet = read(&draft::sound(&mut random).text()).expect("the sheet is sound");
        for column in (0..sheet.columns).filter(|&column| by_labellings::few(&sheet, column)) {
            assert_eq!(by_labellings::work(&sheet, column), work(&sheet, column));
            tried += 1;
        }
    }
    assert!(tried > 200, "only {tried} columns");
}

#[test]
fn both_small_sheets_are_sound() {
    assert!(read(PAPER).is_ok() && read(SMALL).is_ok());
}
