//! Tables that are cut: parts, rests and ranges of columns, by the paper's rules.

use fernijster::Table;

const NO_CHILD: u16 = 65_535;
const FIRST_HANDED: u16 = 32_768;

/// A table that owns its lists.
#[derive(Clone, Debug)]
pub struct Piece {
    pub left: Vec<u16>,
    pub right: Vec<u16>,
    pub states: usize,
    pub costs: Vec<u16>,
    pub columns: usize,
    pub cells: Vec<u16>,
    pub handed: Vec<u32>,
}

/// What stands at a node.
#[derive(Clone, Copy)]
enum Node {
    Symbol(usize),
    Handed(usize),
    Inner(usize, usize),
}

/// A row for each column, as a branch sends them up.
pub type Rows = Vec<Vec<u32>>;

/// The new number of each thing: how many that are kept stand before it.
fn renumber(keep: &[bool]) -> Vec<usize> {
    keep.iter()
        .scan(0, |count, &kept| {
            let number = *count;
            *count += usize::from(kept);
            Some(number)
        })
        .collect()
}

/// The numbers of the things that are kept.
fn kept(keep: &[bool]) -> Vec<usize> {
    (0..keep.len()).filter(|&i| keep[i]).collect()
}

impl Piece {
    pub fn table(&self) -> Table<'_> {
        Table {
            left: &self.left,
            right: &self.right,
            states: self.states as u64,
            costs: &self.costs,
            columns: self.columns as u64,
            cells: &self.cells,
            handed: &self.handed,
        }
    }

    pub fn nodes(&self) -> usize {
        self.left.len()
    }

    fn node(&self, v: usize) -> Node {
        match (self.left[v], self.right[v]) {
            (NO_CHILD, row) if row >= FIRST_HANDED => Node::Handed(usize::from(row - FIRST_HANDED)),
            (NO_CHILD, row) => Node::Symbol(row.into()),
            (left, right) => Node::Inner(left.into(), right.into()),
        }
    }

    /// The inner nodes but the root: where the tree may be cut.
    pub fn places(&self) -> Vec<usize> {
        (0..self.nodes() - 1).filter(|&v| matches!(self.node(v), Node::Inner(..))).collect()
    }

    /// Which nodes are v or stand below it.
    fn branch(&self, v: usize) -> Vec<bool> {
        let mut marks = vec![false; self.nodes()];
        marks[v] = true;
        for p in (0..=v).rev() {
            if let (true, Node::Inner(a, b)) = (marks[p], self.node(p)) {
                marks[a] = true;
                marks[b] = true;
            }
        }
        marks
    }

    /// The row of a handed tip in a column.
    fn handed_row(&self, column: usize, k: usize) -> &[u32] {
        let h = self.handed.len() / (self.columns * self.states).max(1);
        &self.handed[(column * h + k) * self.states..][..self.states]
    }

    /// The kept nodes, with what stands at each, as a table; and each one's number in this table.
    fn keep(
        &self,
        keep: &[bool],
        node: impl Fn(usize) -> Node,
        row: impl Fn(usize, usize) -> Vec<u32>,
    ) -> (Piece, Vec<usize>) {
        let nodes = kept(keep);
        let number = renumber(keep);
        let mut has_row = vec![false; (self.nodes() + 1) / 2];
        let mut handed_tip = vec![false; self.nodes()];
        for &v in &nodes {
            match node(v) {
                Node::Symbol(r) => has_row[r] = true,
                Node::Handed(_) => handed_tip[v] = true,
                Node::Inner(..) => {}
            }
        }
        let (row_number, handed_number) = (renumber(&has_row), renumber(&handed_tip));
        let entries = |v: usize| match node(v) {
            Node::Symbol(r) => (NO_CHILD, row_number[r] as u16),
            Node::Handed(_) => (NO_CHILD, FIRST_HANDED + handed_number[v] as u16),
            Node::Inner(a, b) => (number[a] as u16, number[b] as u16),
        };
        let (left, right) = nodes.iter().map(|&v| entries(v)).unzip();
        let cells =
            kept(&has_row).iter().flat_map(|&r| &self.cells[r * self.columns..][..self.columns]).copied().collect();
        let tips = kept(&handed_tip);
        let handed = (0..self.columns)
            .flat_map(|j| tips.iter().flat_map(move |&v| [(j, v)]))
            .flat_map(|(j, v)| row(j, v))
            .collect();
        (Piece { left, right, cells, handed, ..self.clone() }, nodes)
    }

    fn old_row(&self, column: usize, v: usize) -> Vec<u32> {
        match self.node(v) {
            Node::Handed(k) => self.handed_row(column, k).to_vec(),
            _ => unreachable!("only handed tips have handed rows"),
        }
    }

    /// The part of a cut at v: v and all below.
    pub fn part(&self, v: usize) -> (Piece, Vec<usize>) {
        self.keep(&self.branch(v), |u| self.node(u), |j, u| self.old_row(j, u))
    }

    /// The rest of a cut at v: v become a handed tip with the rows sent up.
    pub fn rest(&self, v: usize, sent: &Rows) -> (Piece, Vec<usize>) {
        let branch = self.branch(v);
        let keep: Vec<bool> = (0..self.nodes()).map(|u| u == v || !branch[u]).collect();
        self.keep(
            &keep,
            |u| if u == v { Node::Handed(0) } else { self.node(u) },
            |j, u| if u == v { sent[j].clone() } else { self.old_row(j, u) },
        )
    }

    /// A range of columns.
    pub fn span(&self, first: usize, count: usize) -> Piece {
        let rows = self.cells.len() / self.columns.max(1);
        let column = self.handed.len() / self.columns.max(1);
        Piece {
            columns: count,
            cells: (0..rows).flat_map(|r| &self.cells[r * self.columns + first..][..count]).copied().collect(),
            handed: self.handed[first * column..(first + count) * column].to_vec(),
            ..self.clone()
        }
    }
}
