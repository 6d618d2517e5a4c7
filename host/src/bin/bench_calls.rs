//! Times the proved calls against the same work in plain Rust: scoring by rows, and counting by sets against that.
//!
//! 1,023 nodes and 2,000 columns; each time is the best of five rounds of one run, and all answers are compared.

// The comparison uses more of it.
#[allow(dead_code)]
#[path = "common/random.rs"]
mod random;

use std::time::{Duration, Instant};

use fernijster::{Refusal, Table, BARRED};
use random::Random;

const TIPS: usize = 512;
const NODES: usize = 2 * TIPS - 1;
const COLUMNS: usize = 2_000;
const ROUNDS: usize = 5;
/// A difference of two times that is shorter says nothing.
const SHORTEST: Duration = Duration::from_millis(1);

fn main() {
    for s in [4, 16] {
        bench_rows(s);
    }
    for s in [4, 16] {
        bench_sets(s);
    }
}

/// A table of its own: tree, costs and cells.
struct Owned {
    left: Vec<u16>,
    right: Vec<u16>,
    s: usize,
    costs: Vec<u16>,
    cells: Vec<u16>,
}

impl Owned {
    /// A random tree and matrix; most cells are one state.
    fn random(s: usize, cost: impl Fn(&mut Random) -> u16) -> Owned {
        let random = &mut Random(s as u64);
        let (left, right) = random.tree(TIPS);
        let costs = (0..s * s).map(|i| if i / s == i % s { 0 } else { cost(random) }).collect();
        let cell = |random: &mut Random| if random.once_in(8) { random.set(s) } else { 1 << random.below(s) };
        let cells = (0..TIPS * COLUMNS).map(|_| cell(random)).collect();
        Owned { left, right, s, costs, cells }
    }

    /// The table of these cells.
    fn table<'a>(&'a self, cells: &'a [u16], columns: usize) -> Table<'a> {
        Table {
            left: &self.left,
            right: &self.right,
            states: self.s as u64,
            costs: &self.costs,
            columns: columns as u64,
            cells,
            handed: &[],
        }
    }

    /// The cells of each column for itself.
    fn columns(&self) -> Vec<Vec<u16>> {
        (0..COLUMNS).map(|j| (0..TIPS).map(|r| self.cells[r * COLUMNS + j]).collect()).collect()
    }
}

/// Scoring by rows: the library against plain Rust.
fn bench_rows(s: usize) {
    let owned = Owned::random(s, |random| random.below(1_000) as u16);
    let table = owned.table(&owned.cells, COLUMNS);
    let proved = || {
        let (mut scores, mut rows) = (vec![0; COLUMNS], vec![0; NODES * s]);
        fernijster::score(&table, &mut scores, &mut rows).expect("the table keeps every rule");
        (scores, rows)
    };
    let plain = || {
        let (mut scores, mut rows) = (vec![0; COLUMNS], vec![0; NODES * s]);
        plain_score(&table, &mut scores, &mut rows);
        (scores, rows)
    };
    let (proved, plain) = race(proved, plain);
    println!("scoring, s = {s}: {}", ratio("proved", proved, "plain Rust", plain));
}

/// Unit costs, a call for each column: scoring by rows against counting by sets, both by the library.
///
/// Either call tests the whole table first. The tests alone are timed by calls that have no room for their output, and
/// so are refused after all other tests.
fn bench_sets(s: usize) {
    let owned = Owned::random(s, |_| 1);
    let columns = owned.columns();
    let by_rows = |room: usize| {
        let mut rows = vec![0; NODES * s];
        let score = |cells: &Vec<u16>| {
            let mut scores = [0];
            fernijster::score(&owned.table(cells, 1), &mut scores[..room], &mut rows).map(|()| scores[0].into())
        };
        columns.iter().map(score).collect::<Vec<Result<u64, Refusal>>>()
    };
    let by_sets = |room: usize| {
        let mut sets = vec![0; room];
        let count = |cells: &Vec<u16>| fernijster::count(&owned.table(cells, 1), 0, &mut sets);
        columns.iter().map(count).collect::<Vec<Result<u64, Refusal>>>()
    };
    let (rows, sets) = race(|| by_rows(1), || by_sets(NODES));
    let (rows_tests, sets_tests) = race(|| by_rows(0), || by_sets(0));
    let (rows_work, sets_work) = (rows.saturating_sub(rows_tests), sets.saturating_sub(sets_tests));
    println!("unit costs, s = {s}: {}", ratio("by rows", rows, "by sets", sets));
    if sets_work < SHORTEST {
        println!("unit costs, s = {s}, without the tests: too short to tell");
    } else {
        println!("unit costs, s = {s}, without the tests: {}", ratio("by rows", rows_work, "by sets", sets_work));
    }
}

/// The best time of each of two, turn by turn. Their answers must be the same.
fn race<T: PartialEq>(mut one: impl FnMut() -> T, mut other: impl FnMut() -> T) -> (Duration, Duration) {
    let mut best = (Duration::MAX, Duration::MAX);
    for _ in 0..ROUNDS {
        let (one_time, one) = time(&mut one);
        let (other_time, other) = time(&mut other);
        assert!(one == other, "the answers differ");
        best = (best.0.min(one_time), best.1.min(other_time));
    }
    best
}

fn time<T>(work: &mut impl FnMut() -> T) -> (Duration, T) {
    let start = Instant::now();
    let answers = work();
    (start.elapsed(), answers)
}

/// Both times in milliseconds, and how many times the second the first takes.
fn ratio(one: &str, one_time: Duration, other: &str, other_time: Duration) -> String {
    let (a, b) = (one_time.as_secs_f64() * 1e3, other_time.as_secs_f64() * 1e3);
    format!("{one} {a:.1} ms, {other} {b:.1} ms, {one} / {other} = {:.2}", a / b)
}

// The row method in plain Rust, on the same lists. It tests nothing: the table is known to keep the rules.

/// The score of each column.
#[inline(never)]
fn plain_score(table: &Table, scores: &mut [u32], rows: &mut [u32]) {
    let s = table.states as usize;
    for (j, score) in scores.iter_mut().enumerate() {
        for v in 0..table.left.len() {
            let (below, here) = rows.split_at_mut(v * s);
            if table.left[v] == 65_535 {
                plain_tip(table, v, j, &mut here[..s]);
            } else {
                let left = &below[usize::from(table.left[v]) * s..][..s];
                let right = &below[usize::from(table.right[v]) * s..][..s];
                plain_inner(table.costs, left, right, &mut here[..s]);
            }
        }
        let root = &rows[(table.left.len() - 1) * s..][..s];
        *score = root.iter().copied().min().unwrap_or(BARRED);
    }
}

/// A tip's row: from its cell, or as handed.
fn plain_tip(table: &Table, v: usize, j: usize, row: &mut [u32]) {
    let (s, c) = (row.len(), table.columns as usize);
    let named = usize::from(table.right[v]);
    if named < 32_768 {
        let cell = table.cells[named * c + j];
        for (x, entry) in row.iter_mut().enumerate() {
            *entry = if cell >> x & 1 == 1 { 0 } else { BARRED };
        }
    } else {
        let h = table.handed.len() / (c * s);
        row.copy_from_slice(&table.handed[(j * h + named - 32_768) * s..][..s]);
    }
}

/// An inner node's row from its children's, both in one pass over the costs (twice as fast as one after the other).
fn plain_inner(costs: &[u16], left: &[u32], right: &[u32], row: &mut [u32]) {
    for (entry, costs) in row.iter_mut().zip(costs.chunks_exact(left.len())) {
        let (mut by_left, mut by_right) = (BARRED, BARRED);
        for ((&cost, &left), &right) in costs.iter().zip(left).zip(right) {
            by_left = by_left.min(plus(left, cost.into()));
            by_right = by_right.min(plus(right, cost.into()));
        }
        *entry = plus(by_left, by_right);
    }
}

/// A sum with a barred term is barred.
fn plus(a: u32, b: u32) -> u32 {
    if a == BARRED || b == BARRED {
        BARRED
    } else {
        a + b
    }
}
