//! A reader of sheets, written from the paper alone: it judges the lines one after the other and gives the first fault.
//!
//! It shares no code with the library. What it reads is kept as it is written, letter by letter.

use crate::fault::{Fault, Place, Reason};
use crate::tree_text;

pub const MOST_BYTES: usize = 65_536;
const LINE_END: u8 = 10;

/// A sheet that keeps every rule.
#[derive(Debug)]
pub struct Sheet {
    pub columns: usize,
    /// By name, in the order of the names: its symbols, column by column.
    pub cells: Vec<Vec<u8>>,
    /// By the parent's state, then by the child's.
    pub costs: [[u64; 4]; 4],
    /// In the order of their numbers, the root last.
    pub nodes: Vec<Node>,
}

#[derive(Clone, Copy, Debug, PartialEq, Eq)]
pub enum Node {
    /// A tip, with the place of its name in the list of names.
    Tip(usize),
    /// An inner node, with the numbers of its left and its right child.
    Inner(usize, usize),
}

/// The bases that a byte of a cell stands for, if it is one of the 18 symbols.
pub fn bases(symbol: u8) -> Option<&'static str> {
    Some(match symbol {
        b'A' => "A",
        b'C' => "C",
        b'G' => "G",
        b'T' | b'U' => "T",
        b'R' => "AG",
        b'Y' => "CT",
        b'S' => "CG",
        b'W' => "AT",
        b'K' => "GT",
        b'M' => "AC",
        b'B' => "CGT",
        b'D' => "AGT",
        b'H' => "ACT",
        b'V' => "ACG",
        b'N' | b'?' | b'-' => "ACGT",
        _ => return None,
    })
}

/// Letters, digits, `_`, `.` and `-`.
pub fn is_of_a_name(byte: u8) -> bool {
    byte.is_ascii_alphanumeric() || b"_.-".contains(&byte)
}

/// Reads a whole sheet.
pub fn read(bytes: &[u8]) -> Result<Sheet, Fault> {
    if bytes.len() > MOST_BYTES {
        return Err(Fault { line: 0, place: Place::Whole, reason: Reason::TooLong });
    }
    let mut lines = Lines { rest: bytes, number: 0 };
    let t = lines.count(Place::NamesCount, "names", &|t| (1..=512).contains(&t))?;
    let names = read_names(&mut lines, t)?;
    let columns = lines.count(Place::ColumnsCount, "columns", &|c| c <= 65_535)?;
    let cells = (0..t).map(|_| read_cells(&mut lines, columns)).collect::<Result<_, _>>()?;
    let k = lines.count(Place::CostsCount, "costs", &|k| k == 0 || k == 4)?;
    let costs = if k == 0 { unit() } else { read_costs(&mut lines)? };
    lines.count(Place::TreeCount, "tree", &|trees| trees == 1)?;
    let line = lines.next(Place::Tree)?;
    let nodes = tree_text::read(line.text, &names).map_err(|reason| line.fault(reason))?;
    lines.nothing_follows()?;
    Ok(Sheet { columns, cells, costs, nodes })
}

/// A line whose bytes and line end are as they should be, without its line end.
struct Line<'a> {
    number: u64,
    place: Place,
    text: &'a [u8],
}

impl Line<'_> {
    fn fault(&self, reason: Reason) -> Fault {
        Fault { line: self.number, place: self.place, reason }
    }

    fn demand(&self, holds: bool, reason: Reason) -> Result<(), Fault> {
        if holds {
            Ok(())
        } else {
            Err(self.fault(reason))
        }
    }
}

/// The lines that are still to be read, and the number of the last one read.
struct Lines<'a> {
    rest: &'a [u8],
    number: u64,
}

impl<'a> Lines<'a> {
    /// The next line, which must be there: its bytes and its line end are judged.
    fn next(&mut self, place: Place) -> Result<Line<'a>, Fault> {
        self.number += 1;
        let mut line = Line { number: self.number, place, text: self.rest };
        line.demand(!self.rest.is_empty(), Reason::EndsEarly)?;
        let end = self.rest.iter().position(|&byte| byte == LINE_END);
        let end = end.ok_or_else(|| line.fault(Reason::NoLineEnd))?;
        line.text = &self.rest[..end];
        self.rest = &self.rest[end + 1..];
        line.demand(line.text.iter().all(|byte| (32..=126).contains(byte)), Reason::Byte)?;
        Ok(line)
    }

    /// A count line: the word, one space and the digits of a number in its range.
    fn count(&mut self, place: Place, word: &str, in_range: &dyn Fn(u64) -> bool) -> Result<usize, Fault> {
        let line = self.next(place)?;
        let digits = line.text.strip_prefix(word.as_bytes()).and_then(|rest| rest.strip_prefix(b" "));
        let digits = digits.ok_or_else(|| line.fault(Reason::CountWord))?;
        let count = number(digits).ok_or_else(|| line.fault(Reason::CountDigits))?;
        line.demand(in_range(count), Reason::CountRange)?;
        Ok(count as usize)
    }

    fn nothing_follows(&self) -> Result<(), Fault> {
        let behind = Line { number: self.number + 1, place: Place::Behind, text: self.rest };
        behind.demand(self.rest.is_empty(), Reason::SomethingBehind)
    }
}

/// The number that digits without a leading zero stand for; one too large for 64 bits becomes the largest.
fn number(digits: &[u8]) -> Option<u64> {
    let plain = digits == b"0" || !digits.starts_with(b"0");
    if digits.is_empty() || !plain || !digits.iter().all(u8::is_ascii_digit) {
        return None;
    }
    Some(digits.iter().fold(0u64, |n, digit| n.saturating_mul(10).saturating_add(u64::from(digit - b'0'))))
}

/// One name a line; of two equal names the later is at fault.
fn read_names<'a>(lines: &mut Lines<'a>, t: usize) -> Result<Vec<&'a [u8]>, Fault> {
    let mut names = Vec::new();
    for _ in 0..t {
        let line = lines.next(Place::Names)?;
        let of_a_name = line.text.iter().all(|&byte| is_of_a_name(byte));
        line.demand(of_a_name && (1..=32).contains(&line.text.len()), Reason::NameForm)?;
        line.demand(!names.contains(&line.text), Reason::NameTwice)?;
        names.push(line.text);
    }
    Ok(names)
}

/// One line of as many symbols as there are columns.
fn read_cells(lines: &mut Lines, columns: usize) -> Result<Vec<u8>, Fault> {
    let line = lines.next(Place::Cells)?;
    line.demand(line.text.len() == columns, Reason::CellsLength)?;
    line.demand(line.text.iter().all(|&byte| bases(byte).is_some()), Reason::NoSymbol)?;
    Ok(line.text.to_vec())
}

/// A cost of 1 for each change.
fn unit() -> [[u64; 4]; 4] {
    [[0, 1, 1, 1], [1, 0, 1, 1], [1, 1, 0, 1], [1, 1, 1, 0]]
}

/// Four lines of four numbers, one space between two of them; at most 999, and 0 on the diagonal.
fn read_costs(lines: &mut Lines) -> Result<[[u64; 4]; 4], Fault> {
    let mut costs = [[0; 4]; 4];
    for (x, row) in costs.iter_mut().enumerate() {
        let line = lines.next(Place::Costs)?;
        let words: Vec<&[u8]> = line.text.split(|&byte| byte == b' ').collect();
        line.demand(words.len() == 4, Reason::CostWords)?;
        for (entry, word) in row.iter_mut().zip(words) {
            *entry = number(word).ok_or_else(|| line.fault(Reason::CostDigits))?;
        }
        line.demand(row.iter().all(|&entry| entry <= 999), Reason::CostOver)?;
        line.demand(row[x] == 0, Reason::CostDiagonal)?;
    }
    Ok(costs)
}
