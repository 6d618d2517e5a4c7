//! A column of a sheet by the scorer that tries all labellings.

use crate::brute::{self, Input, Room};
use crate::reader::{bases, Node, Sheet};
use crate::rows::Column;

/// With more labellings than this a column is not tried.
const MOST: usize = 3_000;

/// Whether a column has few enough labellings: the states of every tip's cell, and four of every inner node.
pub fn few(sheet: &Sheet, column: usize) -> bool {
    let choices = |node: &Node| match *node {
        Node::Tip(row) => states(sheet, row, column).len(),
        Node::Inner(..) => 4,
    };
    sheet.nodes.iter().map(choices).try_fold(1usize, |all, more| all.checked_mul(more)).is_some_and(|all| all <= MOST)
}

/// The states of a cell, by the places of its bases in A, C, G, T.
fn states(sheet: &Sheet, row: usize, column: usize) -> Vec<usize> {
    let cell = bases(sheet.cells[row][column]).expect("a sheet that was read has symbols only");
    cell.chars().filter_map(|base| "ACGT".find(base)).collect()
}

/// What all labellings say of a column.
pub fn work(sheet: &Sheet, column: usize) -> Column {
    let input = table(sheet, column);
    let n = sheet.nodes.len();
    let room = Room { output: n, rows: 4 * n };
    let output = |outcome: brute::Outcome| outcome.ok().expect("a sheet's table is not refused").output;
    Column {
        score: output(brute::score(&input, room))[0],
        labels: output(brute::label(&input, 0, None, room)).into_iter().map(|x| x as usize).collect(),
        sets: output(brute::sets(&input, 0, None, room)),
    }
}

/// A table of the one column.
fn table(sheet: &Sheet, column: usize) -> Input {
    let lists = |node: &Node| match *node {
        Node::Tip(row) => (65_535, row as u16),
        Node::Inner(left, right) => (left as u16, right as u16),
    };
    let (left, right) = sheet.nodes.iter().map(lists).unzip();
    let cell = |row: usize| states(sheet, row, column).into_iter().map(|x| 1 << x).sum();
    Input {
        left,
        right,
        s: 4,
        costs: sheet.costs.as_flattened().iter().map(|&cost| cost as u16).collect(),
        c: 1,
        cells: (0..sheet.cells.len()).map(cell).collect(),
        handed: Vec::new(),
    }
}
