//! Plans of cuts, and what is put together from the calls on the pieces.

use crate::piece::{Piece, Rows};
use crate::random::Random;
use fernijster::{hand_up, label, score, sets, Start, BARRED};

/// A table is worked whole, or cut at a node into part and rest, or cut at a column into two ranges.
pub enum Plan {
    Whole,
    Cut(usize, Box<Plan>, Box<Plan>),
    Columns(usize, Box<Plan>, Box<Plan>),
}

impl Plan {
    /// A random plan for a table, with so many levels of cuts at most.
    pub fn random(piece: &Piece, levels: usize, random: &mut Random) -> Plan {
        let places = piece.places();
        if levels == 0 || random.once_in(8) {
            return Plan::Whole;
        }
        if places.is_empty() || random.once_in(4) {
            let m = random.below(piece.columns + 1);
            let first = Plan::random(&piece.span(0, m), levels - 1, random);
            let second = Plan::random(&piece.span(m, piece.columns - m), levels - 1, random);
            return Plan::Columns(m, first.into(), second.into());
        }
        let v = random.pick(&places);
        let below = Plan::random(&piece.part(v).0, levels - 1, random);
        let unread = vec![vec![0; piece.states]; piece.columns];
        let above = Plan::random(&piece.rest(v, &unread).0, levels - 1, random);
        Plan::Cut(v, below.into(), above.into())
    }

    /// How many tables the plan calls on.
    pub fn pieces(&self) -> usize {
        match self {
            Plan::Whole => 1,
            Plan::Cut(_, a, b) | Plan::Columns(_, a, b) => a.pieces() + b.pieces(),
        }
    }
}

/// Room for the rows of a table.
fn room(piece: &Piece) -> Vec<u32> {
    vec![7; piece.nodes() * piece.states]
}

/// The rows that a table sends up, one for each column.
pub fn send_up(plan: &Plan, piece: &Piece) -> Rows {
    match plan {
        Plan::Whole => (0..piece.columns)
            .map(|j| {
                let mut row = vec![7; piece.states];
                hand_up(&piece.table(), j as u64, &mut row, &mut room(piece)).expect("no cut is refused");
                assert!(row.iter().all(|&e| e <= 1_020_978 || e == BARRED), "a row out of range");
                assert!(row.iter().any(|&e| e != BARRED), "a row wholly barred");
                row
            })
            .collect(),
        Plan::Cut(v, below, above) => {
            let sent = send_up(below, &piece.part(*v).0);
            send_up(above, &piece.rest(*v, &sent).0)
        }
        Plan::Columns(m, first, second) => {
            let mut rows = send_up(first, &piece.span(0, *m));
            rows.extend(send_up(second, &piece.span(*m, piece.columns - m)));
            rows
        }
    }
}

/// The score of each column.
pub fn scores(plan: &Plan, piece: &Piece) -> Vec<u32> {
    match plan {
        Plan::Whole => {
            let mut scores = vec![7; piece.columns];
            score(&piece.table(), &mut scores, &mut room(piece)).expect("no cut is refused");
            scores
        }
        Plan::Cut(v, below, above) => {
            let sent = send_up(below, &piece.part(*v).0);
            scores(above, &piece.rest(*v, &sent).0)
        }
        Plan::Columns(m, first, second) => {
            let mut all = scores(first, &piece.span(0, *m));
            all.extend(scores(second, &piece.span(*m, piece.columns - m)));
            all
        }
    }
}

/// What comes down from the root: each node's state, or each node's set.
#[derive(Clone, Copy)]
pub enum Work {
    Labels,
    Sets,
}

impl Work {
    /// One call on a whole table.
    fn call(self, piece: &Piece, column: usize, start: Start) -> Vec<u16> {
        let mut values = vec![7; piece.nodes()];
        match self {
            Work::Labels => {
                let mut states = vec![7; piece.nodes()];
                label(&piece.table(), column as u64, start, &mut states, &mut room(piece)).expect("no cut is refused");
                values = states.into_iter().map(u16::from).collect();
            }
            Work::Sets => {
                sets(&piece.table(), column as u64, start, &mut values, &mut room(piece)).expect("no cut is refused");
            }
        }
        values
    }

    /// The value of each node of a table in a column, put together by a plan.
    pub fn come_down(self, plan: &Plan, piece: &Piece, column: usize, start: Start) -> Vec<u16> {
        match plan {
            Plan::Whole => self.call(piece, column, start),
            Plan::Cut(v, below, above) => {
                let (part, part_nodes) = piece.part(*v);
                let sent = send_up(below, &part);
                let (rest, rest_nodes) = piece.rest(*v, &sent);
                let mut values = vec![7; piece.nodes()];
                for (&u, value) in rest_nodes.iter().zip(self.come_down(above, &rest, column, start)) {
                    values[u] = value;
                }
                let came_down = Start::Given(values[*v].into());
                for (&u, value) in part_nodes.iter().zip(self.come_down(below, &part, column, came_down)) {
                    values[u] = value;
                }
                values
            }
            Plan::Columns(m, first, _) if column < *m => self.come_down(first, &piece.span(0, *m), column, start),
            Plan::Columns(m, _, second) => {
                self.come_down(second, &piece.span(*m, piece.columns - m), column - m, start)
            }
        }
    }
}
