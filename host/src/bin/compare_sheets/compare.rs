//! Compares entries and a program, sheet by sheet, with what the reader and the scorers of this program say.
//!
//! Everything lent, and a little behind it, is filled with a pattern before a call; the result word and every byte
//! afterwards must be as the rules say: written as far as they say when done, and as before beyond that or when
//! refused.

use std::panic::{catch_unwind, AssertUnwindSafe};

use crate::by_labellings;
use crate::entry::Entry;
use crate::fault::Fault;
use crate::program::Printer;
use crate::random::Random;
use crate::reader::{read, Sheet};
use crate::report::{line, report};
use crate::rows::work;
use crate::tally::Tally;

/// Bytes that stand behind the output and are not lent.
const BEHIND: usize = 5;
/// What stands behind a sheet: it would mend a missing line end, and is not lent either.
const BEHIND_SHEET: &[u8] = b"\nA\n;\n";

/// What is compared, and how often what came up.
pub struct Comparison<'a> {
    pub entries: &'a [(&'a str, Entry)],
    pub program: &'a dyn Printer,
    pub random: Random,
    pub tally: Tally,
}

/// A call, and what the rules say of it.
struct Call {
    column: u64,
    room: usize,
    expected: Expected,
}

enum Expected {
    /// The line that is written.
    Done(Vec<u8>),
    /// The number and the line that it carries.
    Refused(u64, u64),
}

impl Expected {
    fn number(&self) -> u64 {
        match *self {
            Expected::Done(_) => 0,
            Expected::Refused(number, _) => number,
        }
    }

    fn word(&self) -> u64 {
        match self {
            Expected::Done(line) => (line.len() as u64) << 8,
            Expected::Refused(number, line) => line << 8 | number,
        }
    }

    /// The output after the call, given what it was before.
    fn output(&self, before: &[u8]) -> Vec<u8> {
        match self {
            Expected::Done(line) => [line, &before[line.len()..]].concat(),
            Expected::Refused(..) => before.to_vec(),
        }
    }
}

impl Comparison<'_> {
    /// Calls the entries on a sheet: for up to `most` columns, and for columns that it has not.
    pub fn entries(&mut self, sheet: &[u8], most: usize) -> Result<(), String> {
        let read = read(sheet);
        self.tally.sheet(&read);
        let calls = match &read {
            Ok(sheet) => self.sound_calls(sheet, most)?,
            Err(fault) => self.refused_calls(fault),
        };
        for call in calls {
            self.tally.call(call.expected.number());
            for (name, entry) in self.entries {
                compare_call(name, *entry, sheet, &call, &mut self.random)?;
            }
        }
        Ok(())
    }

    /// Runs the program on a sheet.
    pub fn program(&mut self, sheet: &[u8]) -> Result<(), String> {
        self.tally.report(&read(sheet));
        let expected = report(sheet);
        let printed = self.program.print(sheet).map_err(|error| format!("the program does not run: {error}"))?;
        if printed == expected.as_bytes() {
            return Ok(());
        }
        Err(format!("the program: expected {}\nbut it printed {}", shown(expected.as_bytes()), shown(&printed)))
    }

    /// Every column that is worked, with room that is exact, one short, one more and none; then columns beyond the
    /// last, with room and without.
    fn sound_calls(&mut self, sheet: &Sheet, most: usize) -> Result<Vec<Call>, String> {
        let mut calls = Vec::new();
        for column in columns(sheet.columns, most, &mut self.random) {
            let line = self.expected_line(sheet, column)?;
            for room in [line.len(), line.len() - 1, line.len() + 1, 0] {
                let enough = room >= line.len();
                let expected = if enough { Expected::Done(line.clone()) } else { Expected::Refused(8, 0) };
                calls.push(Call { column: column as u64, room, expected });
            }
        }
        let c = sheet.columns as u64;
        let beyond = [c, c + 1, self.random.pick(&[65_535, 65_536, 1 << 32, 1 << 32 | c, 1 << 63, u64::MAX])];
        for column in beyond.into_iter().filter(|&column| column >= c) {
            let room = self.random.pick(&[0, 0, 20, 2_000]);
            calls.push(Call { column, room, expected: Expected::Refused(6, 0) });
        }
        Ok(calls)
    }

    /// The line of a column, by rows; where there are few labellings, by trying them all too.
    fn expected_line(&mut self, sheet: &Sheet, column: usize) -> Result<Vec<u8>, String> {
        let worked = work(sheet, column);
        if by_labellings::few(sheet, column) {
            self.tally.by_labellings += 1;
            let tried = by_labellings::work(sheet, column);
            if tried != worked {
                return Err(format!(
                    "the two scorers of this program differ: {worked:?} by rows, {tried:?} by labellings"
                ));
            }
        }
        self.tally.column(sheet, column);
        Ok(line(sheet, column, &worked).into_bytes())
    }

    /// A sheet at fault is refused for that, whatever column is asked and whatever room is lent.
    fn refused_calls(&mut self, fault: &Fault) -> Vec<Call> {
        let columns = [0, self.random.pick(&[0, 1, 5, 65_535, 1 << 32, u64::MAX])];
        let rooms = [0, self.random.pick(&[1, 20, 2_000])];
        let call = |(column, room)| Call { column, room, expected: Expected::Refused(fault.number(), fault.line) };
        columns.into_iter().zip(rooms).map(call).collect()
    }
}

/// All columns, or the first, the last and some between.
fn columns(c: usize, most: usize, random: &mut Random) -> Vec<usize> {
    match c <= most {
        true => (0..c).collect(),
        false => [0, c - 1].into_iter().chain((2..most).map(|_| random.below(c))).collect(),
    }
}

/// Calls an entry, and compares the result word and all bytes.
fn compare_call(name: &str, entry: Entry, sheet: &[u8], call: &Call, random: &mut Random) -> Result<(), String> {
    let read_from = [sheet, BEHIND_SHEET].concat();
    let before: Vec<u8> = (0..call.room + BEHIND).map(|_| 128 | random.word() as u8).collect();
    let mut output = before.clone();
    let made = || entry(&read_from[..sheet.len()], call.column, &mut output[..call.room]);
    let asked = format!("{name}, column {}, room {}", call.column, call.room);
    let word = catch_unwind(AssertUnwindSafe(made))
        .map_err(|_| format!("{asked}: no answer at all, see the message on standard error"))?;
    if word != call.expected.word() {
        return Err(format!("{asked}: expected the word {:#x}\nbut the entry gave {word:#x}", call.expected.word()));
    }
    if output != call.expected.output(&before) {
        let expected = call.expected.output(&before);
        return Err(format!("{asked}: expected the bytes {}\nbut there are {}", shown(&expected), shown(&output)));
    }
    if read_from != [sheet, BEHIND_SHEET].concat() {
        return Err(format!("{asked}: the sheet is written over"));
    }
    Ok(())
}

/// Bytes as they can be printed, the beginning of many.
pub fn shown(bytes: &[u8]) -> String {
    let front = &bytes[..bytes.len().min(3_000)];
    let more = if front.len() < bytes.len() { format!(" and so on, {} bytes", bytes.len()) } else { String::new() };
    format!("\"{}\"{more}", front.escape_ascii())
}
