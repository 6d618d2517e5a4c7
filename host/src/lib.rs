//! Safe Rust over Fernijster's five proved table calls and its sheet entry.
//!
//! What a table is and what each call writes is in the paper's words: children and matrix rows in two lists, costs row
//! by row with the parent's state first, cells as sets of states (bit x stands for state x), handed entries column by
//! column. Every call takes any lists and any numbers: it either is done, or gives the first of the numbered refusals
//! that holds and has changed nothing.
//!
//! ```
//! use fernijster::{label, score, Start, Table};
//!
//! // ((a,b),c); with A, A, G in column 0 and C, T, T in column 1, and unit costs.
//! let table = Table {
//!     left: &[65_535, 65_535, 0, 65_535, 2],
//!     right: &[0, 1, 1, 2, 3],
//!     states: 4,
//!     costs: &[0, 1, 1, 1, 1, 0, 1, 1, 1, 1, 0, 1, 1, 1, 1, 0],
//!     columns: 2,
//!     cells: &[0b0001, 0b0010, 0b0001, 0b1000, 0b0100, 0b1000],
//!     handed: &[],
//! };
//! let mut rows = [0; 5 * 4];
//!
//! let mut scores = [0; 2];
//! score(&table, &mut scores, &mut rows)?;
//! assert_eq!(scores, [1, 1]);
//!
//! let mut states = [0; 5];
//! label(&table, 1, Start::Free, &mut states, &mut rows)?;
//! assert_eq!(states, [1, 3, 3, 3, 3]);
//! # Ok::<(), fernijster::Refusal>(())
//! ```
//!
//! The sheet entry, [`column`], is on text: a sheet's bytes and a column number go in, that column's line of the report
//! comes out.
//!
//! A call is lent no more of an output than it may write; what stands beyond is out of its reach.

mod raw;
mod refusal;

/// The page on cutting trees; its example runs as a test.
#[cfg(doctest)]
#[doc = include_str!("../../docs/CUTTING.md")]
mod cutting {}

pub use refusal::Refusal;
use refusal::{read, read_bare, read_column};

/// An entry of a row that no labelling reaches.
pub const BARRED: u32 = u32::MAX;

/// A tree, its costs and its matrix, as every call reads them.
#[derive(Clone, Copy, Debug)]
pub struct Table<'a> {
    /// By node: the left child, or 65,535 at a tip.
    pub left: &'a [u16],
    /// By node: the right child; at a tip its matrix row, or 32,768 + k for handed row k.
    pub right: &'a [u16],
    /// The number of states, s.
    pub states: u64,
    /// The cost from state x to state y at `x * s + y`.
    pub costs: &'a [u16],
    /// The number of columns, c.
    pub columns: u64,
    /// The cell of matrix row r in column j at `r * c + j`.
    pub cells: &'a [u16],
    /// With h handed tips, the entry of column j, handed row k and state x at `(j * h + k) * s + x`.
    pub handed: &'a [u32],
}

/// What the root is forced to: nothing, or what is given (a state for [`label`], a set of states for [`sets`]).
#[derive(Clone, Copy, Debug, PartialEq, Eq)]
pub enum Start {
    Free,
    Given(u64),
}

impl Table<'_> {
    /// The number of nodes.
    fn nodes(&self) -> usize {
        self.left.len()
    }

    /// The number of columns; one that no list can have stands for all beyond it.
    fn columns(&self) -> usize {
        usize::try_from(self.columns).unwrap_or(usize::MAX)
    }

    /// The number of states; one that no list can have stands for all beyond it.
    fn states(&self) -> usize {
        usize::try_from(self.states).unwrap_or(usize::MAX)
    }

    /// The number of entries that the row room takes: s for each node.
    fn entries(&self) -> usize {
        self.nodes().saturating_mul(self.states())
    }
}

/// The first `most` of a list, or all of a shorter one: what a call that writes no more is lent.
fn front<T>(list: &mut [T], most: usize) -> &mut [T] {
    let length = list.len().min(most);
    &mut list[..length]
}

impl Start {
    /// The start as the library takes it.
    ///
    /// A given number that the library would take for no start becomes its neighbour: either is far beyond every state,
    /// and as a set holds states that there are not, so that both are refused alike and at the same place.
    fn word(self) -> u64 {
        match self {
            Start::Free => raw::NO_START,
            Start::Given(raw::NO_START) => raw::NO_START - 1,
            Start::Given(start) => start,
        }
    }
}

/// Calls a function of the library with a table's lists and numbers, and then with more.
///
/// Each list goes in with its own length and is borrowed until the function returns, the lists written by nobody else,
/// which is all that the library asks of its caller.
macro_rules! call {
    ($function:ident, $table:ident, $($more:expr),+ $(,)?) => {
        unsafe {
            raw::$function(
                $table.left.as_ptr(),
                $table.left.len(),
                $table.right.as_ptr(),
                $table.right.len(),
                $table.states,
                $table.costs.as_ptr(),
                $table.costs.len(),
                $table.columns,
                $table.cells.as_ptr(),
                $table.cells.len(),
                $($more),+
            )
        }
    };
}

/// Writes the score of each column to the first c of `scores`.
///
/// The row room `rows` takes s entries for each node; it then holds the rows of the last column, and is untouched where
/// there are no columns.
pub fn score(table: &Table, scores: &mut [u32], rows: &mut [u32]) -> Result<(), Refusal> {
    let scores = front(scores, table.columns());
    let rows = front(rows, table.entries());
    read_bare(call!(
        fernijster_score,
        table,
        table.handed.as_ptr(),
        table.handed.len(),
        scores.as_mut_ptr(),
        scores.len(),
        rows.as_mut_ptr(),
        rows.len(),
    ))
}

/// Writes the labelling of a column to the first n of `states`, and the column's rows to the row room.
///
/// Forced to a state, the root takes that one, and only labellings with the root there compete.
pub fn label(table: &Table, column: u64, start: Start, states: &mut [u8], rows: &mut [u32]) -> Result<(), Refusal> {
    let states = front(states, table.nodes());
    let rows = front(rows, table.entries());
    read_bare(call!(
        fernijster_label,
        table,
        table.handed.as_ptr(),
        table.handed.len(),
        column,
        start.word(),
        states.as_mut_ptr(),
        states.len(),
        rows.as_mut_ptr(),
        rows.len(),
    ))
}

/// Writes each node's set, the states that some least labelling takes there, to the first n of `sets`, and the column's
/// rows to the row room.
///
/// Forced to a set, each of its states is a start for itself, and the node sets are joined.
pub fn sets(table: &Table, column: u64, start: Start, sets: &mut [u16], rows: &mut [u32]) -> Result<(), Refusal> {
    let sets = front(sets, table.nodes());
    let rows = front(rows, table.entries());
    read_bare(call!(
        fernijster_sets,
        table,
        table.handed.as_ptr(),
        table.handed.len(),
        column,
        start.word(),
        sets.as_mut_ptr(),
        sets.len(),
        rows.as_mut_ptr(),
        rows.len(),
    ))
}

/// Writes the row that the tree hands up in a column, its root's, to the first s of `row`, and the column's rows to the
/// row room.
pub fn hand_up(table: &Table, column: u64, row: &mut [u32], rows: &mut [u32]) -> Result<(), Refusal> {
    let row = front(row, table.states());
    let rows = front(rows, table.entries());
    read_bare(call!(
        fernijster_hand_up,
        table,
        table.handed.as_ptr(),
        table.handed.len(),
        column,
        row.as_mut_ptr(),
        row.len(),
        rows.as_mut_ptr(),
        rows.len(),
    ))
}

/// Counts the changes of a column by sets, and writes the preliminary sets to the first n of `sets`.
///
/// Only for unit costs and trees without handed tips; the table's handed entries are not looked at.
pub fn count(table: &Table, column: u64, sets: &mut [u16]) -> Result<u64, Refusal> {
    let sets = front(sets, table.nodes());
    read(call!(fernijster_count, table, column, sets.as_mut_ptr(), sets.len()))
}

/// The bytes that no line of a report needs more of: a column and a score of up to 5 and 7 digits, the quiet mark, a
/// count of up to 4 digits, the labels of up to 1,023 nodes, and four spaces.
pub const LONGEST_LINE: usize = 5 + 7 + 1 + 4 + 1_023 + 4;

/// Writes a column's line of the report, without its line end, to the front of `out`; gives the number of its bytes.
///
/// The line has the column, its score, the quiet mark, the number of nodes whose set has one state, and the labels in
/// node order. Each call reads the sheet anew. It is refused for the first fault in the sheet, then by
/// [`Refusal::Which`] where there is no such column, then by [`Refusal::Room`] where `out` is shorter than the line.
///
/// ```
/// use fernijster::{column, Refusal, LONGEST_LINE};
///
/// let sheet = b"names 3\na\nb\nc\ncolumns 2\nAC\nAT\nGT\ncosts 0\ntree 1\n((a,b),c);\n";
/// let mut out = [0; LONGEST_LINE];
/// let written = column(sheet, 1, &mut out)?;
/// assert_eq!(&out[..written], b"1 1 1 5 CTTTT");
///
/// assert_eq!(column(sheet, 2, &mut out), Err(Refusal::Which));
/// assert_eq!(column(sheet, 1, &mut out[..12]), Err(Refusal::Room));
///
/// // A J in the cells of b, on line 7.
/// let sheet = b"names 3\na\nb\nc\ncolumns 2\nAC\nAJ\nGT\ncosts 0\ntree 1\n((a,b),c);\n";
/// assert_eq!(column(sheet, 0, &mut out), Err(Refusal::Symbol { line: 7 }));
/// # Ok::<(), Refusal>(())
/// ```
pub fn column(sheet: &[u8], column: u64, out: &mut [u8]) -> Result<usize, Refusal> {
    let out = front(out, LONGEST_LINE);
    // Both lists go in with their own lengths and are borrowed until the function returns, `out` for it alone.
    read_column(unsafe { raw::fernijster_column(sheet.as_ptr(), sheet.len(), column, out.as_mut_ptr(), out.len()) })
}
