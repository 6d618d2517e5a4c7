//! A scorer by rows, written from the paper alone. A barred entry is none, and no number stands for it.
//!
//! A node's set is found from its definition: the states for which the least labelling with the node there costs no
//! more than the score. No choice of one node is derived from a choice at another.

use crate::reader::{bases, Node, Sheet};

/// For each state the least cost, or none where the state is barred.
type Row = [Option<u64>; 4];

/// What is known of a column.
#[derive(Clone, Debug, PartialEq, Eq)]
pub struct Column {
    pub score: u64,
    /// By node: its state in the labelling.
    pub labels: Vec<usize>,
    /// By node: the states that least labellings take there, bit x standing for state x.
    pub sets: Vec<u64>,
}

/// Works a column of a sheet.
pub fn work(sheet: &Sheet, column: usize) -> Column {
    let below = rows(sheet, column);
    let root = below[below.len() - 1];
    let score = least(root).expect("every cell leaves a state");
    let outside = outside(sheet, &below);
    let set = |(below, outside): (&Row, &Row)| {
        let through = |&x: &usize| plus(below[x], outside[x]) == Some(score);
        (0..4).filter(through).map(|x| 1 << x).sum()
    };
    Column { score, labels: labels(sheet, &below), sets: below.iter().zip(&outside).map(set).collect() }
}

fn least(row: Row) -> Option<u64> {
    row.into_iter().flatten().min()
}

/// A sum with a barred term is barred.
fn plus(a: Option<u64>, b: Option<u64>) -> Option<u64> {
    Some(a? + b?)
}

/// Under a parent in state x, for each state of a child with this row: the cost of the edge plus the child's entry.
fn sums(sheet: &Sheet, x: usize, child: Row) -> Row {
    [0, 1, 2, 3].map(|y| plus(Some(sheet.costs[x][y]), child[y]))
}

/// For each state of a parent: the least that a child with this row adds.
fn added(sheet: &Sheet, child: Row) -> Row {
    [0, 1, 2, 3].map(|x| least(sums(sheet, x, child)))
}

fn both(a: Row, b: Row) -> Row {
    [0, 1, 2, 3].map(|x| plus(a[x], b[x]))
}

/// By node: for each state the least cost of the node's subtree when the node is in it.
fn rows(sheet: &Sheet, column: usize) -> Vec<Row> {
    let mut rows: Vec<Row> = Vec::new();
    for node in &sheet.nodes {
        rows.push(match *node {
            Node::Tip(row) => tip(sheet.cells[row][column]),
            Node::Inner(left, right) => both(added(sheet, rows[left]), added(sheet, rows[right])),
        });
    }
    rows
}

/// A tip has 0 in its cell's states, and the others are barred.
fn tip(symbol: u8) -> Row {
    let cell = bases(symbol).expect("a sheet that was read has symbols only");
    ['A', 'C', 'G', 'T'].map(|base| cell.contains(base).then_some(0))
}

/// By node: for each state the least cost of all edges that are not in the node's subtree when the node is in it.
fn outside(sheet: &Sheet, below: &[Row]) -> Vec<Row> {
    let mut outside = vec![[Some(0); 4]; below.len()];
    for (v, node) in sheet.nodes.iter().enumerate().rev() {
        let Node::Inner(left, right) = *node else { continue };
        for (child, sibling) in [(left, right), (right, left)] {
            let parent = both(outside[v], added(sheet, below[sibling]));
            let reached = |y: usize| (0..4).filter_map(|x| plus(parent[x], Some(sheet.costs[x][y]))).min();
            outside[child] = [0, 1, 2, 3].map(reached);
        }
    }
    outside
}

/// The lowest state among a row's least entries.
fn lowest(row: Row) -> usize {
    (0..4).find(|&x| row[x].is_some() && row[x] == least(row)).expect("no row is wholly barred")
}

/// The root takes the lowest state among its row's least entries; each child, given its parent's state, the lowest that
/// reaches the least sum.
fn labels(sheet: &Sheet, below: &[Row]) -> Vec<usize> {
    let mut labels = vec![0; below.len()];
    labels[below.len() - 1] = lowest(below[below.len() - 1]);
    for (v, node) in sheet.nodes.iter().enumerate().rev() {
        let Node::Inner(left, right) = *node else { continue };
        for child in [left, right] {
            labels[child] = lowest(sums(sheet, labels[v], below[child]));
        }
    }
    labels
}
