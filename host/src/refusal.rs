//! The numbered refusals, and how a result of the library is read.

use std::error::Error;
use std::fmt;

/// Why a call was refused. A refused call has changed nothing that it was lent.
#[derive(Clone, Copy, Debug, PartialEq, Eq)]
pub enum Refusal {
    Size,
    Shape {
        node: u64,
    },
    Costs,
    Cells,
    Rows,
    Which,
    NotUnit,
    Room,
    /// The sheet's form is broken on this line; line 0 for a sheet that is too long.
    Sheet {
        line: u64,
    },
    /// A cell on this line is no symbol.
    Symbol {
        line: u64,
    },
    /// The tree on this line is wrong.
    TreeText {
        line: u64,
    },
}

impl Refusal {
    /// The refusal's number, 1 to 11. A table call tests 1 to 8 in this order and gives the first that holds; the sheet
    /// entry gives the first fault in the sheet, 9 to 11, then 6, then 8.
    pub fn number(self) -> u64 {
        match self {
            Refusal::Size => 1,
            Refusal::Shape { .. } => 2,
            Refusal::Costs => 3,
            Refusal::Cells => 4,
            Refusal::Rows => 5,
            Refusal::Which => 6,
            Refusal::NotUnit => 7,
            Refusal::Room => 8,
            Refusal::Sheet { .. } => 9,
            Refusal::Symbol { .. } => 10,
            Refusal::TreeText { .. } => 11,
        }
    }
}

impl fmt::Display for Refusal {
    fn fmt(&self, f: &mut fmt::Formatter<'_>) -> fmt::Result {
        match self {
            Refusal::Size => write!(
                f,
                "SIZE (1): the two lists of the tree differ in length, or the number of nodes is even or over 1,023"
            ),
            Refusal::Shape { node } => write!(
                f,
                "SHAPE (2): node {node} is the lowest that breaks a rule of the tree: two different children below an \
                 inner node, and no other parent for them; a row number in range for a tip, and no other tip for it; \
                 a parent for each node but the last"
            ),
            Refusal::Costs => write!(
                f,
                "COSTS (3): the number of states s is not 2 to 16, the cost table has not s times s entries, an entry \
                 is over 999, or one of the diagonal is not 0"
            ),
            Refusal::Cells => write!(
                f,
                "CELLS (4): there are over 65,535 columns, the matrix has not a cell for each symbol tip and column, \
                 or a cell is empty or holds a state that there is not"
            ),
            Refusal::Rows => write!(
                f,
                "ROWS (5): the handed entries are not one for each column, handed tip and state, one is over \
                 1,020,978 and not barred, or a handed row is wholly barred"
            ),
            Refusal::Which => write!(
                f,
                "WHICH (6): there is no such column, or the start is an empty set, holds a state that there is not, \
                 or one that is barred at the root"
            ),
            Refusal::NotUnit => write!(
                f,
                "NOT UNIT (7): counting by sets needs costs of 0 on the diagonal and 1 elsewhere, and no handed tips"
            ),
            Refusal::Room => write!(f, "ROOM (8): the output or the row room is shorter than needed"),
            Refusal::Sheet { line: 0 } => write!(f, "SHEET (9): the sheet is longer than 65,536 bytes"),
            Refusal::Sheet { line } => write!(
                f,
                "SHEET (9): line {line} is not what the sheet's form asks for there: it is missing or has no line end, \
                 has a byte that is not 32 to 126, is no such count, name, cell line of that length or cost line, or \
                 stands behind the tree line"
            ),
            Refusal::Symbol { line } => write!(
                f,
                "SYMBOL (10): a cell on line {line} is none of the symbols A, C, G, T, U, R, Y, S, W, K, M, B, D, H, \
                 V, N, ? and -"
            ),
            Refusal::TreeText { line } => write!(
                f,
                "TREE TEXT (11): the tree on line {line} is not a name or a pair in brackets, ended by `;`, with each \
                 of the sheet's names once, nothing else in it and brackets at most 128 deep"
            ),
        }
    }
}

impl Error for Refusal {}

/// Reads the result of a call: what a done call carries, or the refusal.
///
/// No two results are read alike, so that nothing of the word is lost; one that the interface doesn't have is a fault
/// of the library, and no refusal of the table.
pub(crate) fn read(word: u64) -> Result<u64, Refusal> {
    match (word & 0xff, word >> 8) {
        (0, carried) => Ok(carried),
        (1, 0) => Err(Refusal::Size),
        (2, node) => Err(Refusal::Shape { node }),
        (3, 0) => Err(Refusal::Costs),
        (4, 0) => Err(Refusal::Cells),
        (5, 0) => Err(Refusal::Rows),
        (6, 0) => Err(Refusal::Which),
        (7, 0) => Err(Refusal::NotUnit),
        (8, 0) => Err(Refusal::Room),
        _ => panic!("the library answered {word:#x}, which its interface does not have"),
    }
}

/// Reads the result of a call that carries nothing when done.
pub(crate) fn read_bare(word: u64) -> Result<(), Refusal> {
    let carried = read(word)?;
    assert!(carried == 0, "the library answered {word:#x}, which its interface does not have");
    Ok(())
}

/// Reads the result of the sheet entry: the number of bytes written, or the refusal.
///
/// What it carries has 24 bits, and nothing stands above them. No two results are read alike here either.
pub(crate) fn read_column(word: u64) -> Result<usize, Refusal> {
    match (word & 0xff, word >> 8) {
        (0, written @ 0..=0xff_ffff) => Ok(written as usize),
        (6, 0) => Err(Refusal::Which),
        (8, 0) => Err(Refusal::Room),
        (9, line @ 0..=0xff_ffff) => Err(Refusal::Sheet { line }),
        (10, line @ 0..=0xff_ffff) => Err(Refusal::Symbol { line }),
        (11, line @ 0..=0xff_ffff) => Err(Refusal::TreeText { line }),
        _ => panic!("the library answered {word:#x}, which its interface does not have"),
    }
}

#[cfg(test)]
mod tests {
    use super::*;

    #[test]
    fn numbers_are_read_as_they_are_written() {
        for number in 1..=8 {
            assert_eq!(read(number).unwrap_err().number(), number);
        }
    }

    #[test]
    fn carried_values_are_kept() {
        assert_eq!(read(1022 << 8 | 2), Err(Refusal::Shape { node: 1022 }));
        assert_eq!(read(511 << 8), Ok(511));
        assert_eq!(read_bare(0), Ok(()));
    }

    #[test]
    fn results_of_the_sheet_entry_are_read_as_they_are_written() {
        for number in [6, 8, 9, 10, 11] {
            assert_eq!(read_column(number).unwrap_err().number(), number);
        }
        assert_eq!(read_column(13 << 8), Ok(13));
        assert_eq!(read_column(1_034 << 8 | 9), Err(Refusal::Sheet { line: 1_034 }));
        assert_eq!(read_column(6 << 8 | 10), Err(Refusal::Symbol { line: 6 }));
        assert_eq!(read_column(11 << 8 | 11), Err(Refusal::TreeText { line: 11 }));
    }

    #[test]
    fn a_word_that_the_sheet_entry_does_not_have_is_no_result() {
        for word in [1, 5, 7, 12, 255, 1 << 8 | 6, 1 << 8 | 8, 1 << 32, 1 << 32 | 9, 1 << 56 | 10, 1 << 63 | 11] {
            assert!(std::panic::catch_unwind(|| read_column(word)).is_err(), "{word:#x}");
        }
    }

    #[test]
    fn a_refusal_says_what_is_wrong_and_where() {
        assert_eq!(Refusal::Sheet { line: 0 }.to_string(), "SHEET (9): the sheet is longer than 65,536 bytes");
        assert!(Refusal::Sheet { line: 4 }.to_string().starts_with("SHEET (9): line 4 "));
        assert!(Refusal::Symbol { line: 6 }.to_string().starts_with("SYMBOL (10): a cell on line 6 "));
        assert!(Refusal::TreeText { line: 11 }.to_string().starts_with("TREE TEXT (11): the tree on line 11 "));
    }

    #[test]
    #[should_panic(expected = "does not have")]
    fn a_number_of_another_interface_is_no_refusal() {
        let _ = read(9);
    }

    #[test]
    #[should_panic(expected = "does not have")]
    fn a_done_call_that_carries_what_it_should_not_is_no_result() {
        let _ = read_bare(1 << 8);
    }
}
