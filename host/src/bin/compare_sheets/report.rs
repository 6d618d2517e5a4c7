//! The report of a sheet, line by line, from the reader and the scorer of this program.

use crate::reader::{read, Sheet};
use crate::rows::{work, Column};

/// The whole report, as it is printed.
pub fn report(bytes: &[u8]) -> String {
    match read(bytes) {
        Err(fault) => format!("refused {} {}\n", fault.number(), fault.line),
        Ok(sheet) => whole(&sheet),
    }
}

/// What is printed of a sheet that was read.
fn whole(sheet: &Sheet) -> String {
    let mut total = 0;
    let mut printed = format!("columns {}\n", sheet.columns);
    for column in 0..sheet.columns {
        let worked = work(sheet, column);
        printed += &line(sheet, column, &worked);
        printed += "\n";
        total += worked.score;
    }
    printed + &format!("total {total}\n")
}

/// The line of a column, without its line end.
pub fn line(sheet: &Sheet, column: usize, worked: &Column) -> String {
    let labels: String = worked.labels.iter().map(|&x| ['A', 'C', 'G', 'T'][x]).collect();
    let single = worked.sets.iter().filter(|set| set.count_ones() == 1).count();
    format!("{column} {} {} {single} {labels}", worked.score, quiet(sheet, column))
}

/// 1 when fewer than two of the four bases stand at two or more tips each, written plainly (a U is a T); else 0.
pub fn quiet(sheet: &Sheet, column: usize) -> u64 {
    let at_tips = |letters: &[u8]| sheet.cells.iter().filter(|cells| letters.contains(&cells[column])).count();
    let shared = [&b"A"[..], b"C", b"G", b"TU"].into_iter().filter(|letters| at_tips(letters) >= 2).count();
    u64::from(shared < 2)
}
