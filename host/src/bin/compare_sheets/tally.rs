//! What was compared, and how often what came up. What never came up would be something that nothing is known of.

use std::collections::BTreeMap;

use crate::draft::SYMBOLS;
use crate::fault::{possible, Fault, Place, Reason, PLACES};
use crate::reader::Sheet;
use crate::report::quiet;

/// The numbers that the entry can give.
const NUMBERS: [u64; 6] = [0, 6, 8, 9, 10, 11];

#[derive(Default)]
pub struct Tally {
    calls: BTreeMap<u64, usize>,
    sound: usize,
    faults: BTreeMap<(Place, Reason), usize>,
    reports: BTreeMap<u64, usize>,
    symbols: BTreeMap<u8, usize>,
    /// Columns by their quiet mark.
    marks: BTreeMap<u64, usize>,
    /// Columns that were worked by trying all labellings too.
    pub by_labellings: usize,
}

fn times<K: Ord>(counted: &BTreeMap<K, usize>, key: &K) -> usize {
    counted.get(key).copied().unwrap_or(0)
}

impl Tally {
    pub fn call(&mut self, number: u64) {
        *self.calls.entry(number).or_default() += 1;
    }

    pub fn sheet(&mut self, read: &Result<Sheet, Fault>) {
        match read {
            Ok(_) => self.sound += 1,
            Err(fault) => *self.faults.entry((fault.place, fault.reason)).or_default() += 1,
        }
    }

    pub fn report(&mut self, read: &Result<Sheet, Fault>) {
        let number = read.as_ref().map_or_else(Fault::number, |_| 0);
        *self.reports.entry(number).or_default() += 1;
    }

    pub fn column(&mut self, sheet: &Sheet, column: usize) {
        *self.marks.entry(quiet(sheet, column)).or_default() += 1;
        for cells in &sheet.cells {
            *self.symbols.entry(cells[column]).or_default() += 1;
        }
    }

    /// How often reports were printed and compared.
    pub fn all_reports(&self) -> usize {
        self.reports.values().sum()
    }

    pub fn all_calls(&self) -> usize {
        self.calls.values().sum()
    }

    pub fn print(&self) {
        let numbers = |counted: &BTreeMap<u64, usize>| NUMBERS.map(|n| format!("{:>9}", times(counted, &n))).concat();
        println!("{:<22}{}", "number", NUMBERS.map(|number| format!("{number:>9}")).concat());
        println!("{:<22}{}", "calls of each entry", numbers(&self.calls));
        println!("{:<22}{}", "reports of the program", numbers(&self.reports));
        println!(
            "{} sheets read to their end; {} columns quiet and {} not, {} of all worked by trying all labellings too",
            self.sound,
            times(&self.marks, &1),
            times(&self.marks, &0),
            self.by_labellings
        );
        let symbol = |symbol: &u8| format!(" {} {}", *symbol as char, times(&self.symbols, symbol));
        println!("symbols:{}", SYMBOLS.iter().map(symbol).collect::<String>());
        println!("first faults by place:");
        for place in PLACES {
            let fault = |reason| format!(" {reason:?} {}", times(&self.faults, &(place, reason)));
            println!("  {place:?}:{}", possible(place).into_iter().map(fault).collect::<String>());
        }
    }

    /// What should have come up and did not.
    pub fn unseen(&self) -> Vec<String> {
        let numbers = NUMBERS.into_iter().filter(|number| times(&self.calls, number) == 0);
        let numbers = numbers.map(|number| format!("the number {number}"));
        let printed = [0, 9, 10, 11].into_iter().filter(|number| times(&self.reports, number) == 0);
        let printed = printed.map(|number| format!("a report of number {number}"));
        let symbols = SYMBOLS.iter().filter(|symbol| times(&self.symbols, symbol) == 0);
        let symbols = symbols.map(|&symbol| format!("the symbol {}", symbol as char));
        let marks = [0, 1].into_iter().filter(|mark| times(&self.marks, mark) == 0);
        let marks = marks.map(|mark| format!("the quiet mark {mark}"));
        let faults =
            PLACES.into_iter().flat_map(|place| possible(place).into_iter().map(move |reason| (place, reason)));
        let faults = faults.filter(|fault| times(&self.faults, fault) == 0);
        let faults = faults.map(|(place, reason)| format!("the fault {reason:?} in {place:?}"));
        numbers.chain(printed).chain(symbols).chain(marks).chain(faults).collect()
    }
}
