//! Cuts random trees at random inner nodes, again and again, and their columns anywhere; calls the library for each piece
//! and compares what is put together with what the library gives for the whole.
//!
//! Every call must be done: a refusal stops the program, as does a row that may not be handed up.

mod piece;
mod plan;
#[path = "../common/random.rs"]
mod random;

use std::process::ExitCode;

use fernijster::Start;
use piece::Piece;
use plan::{scores, send_up, Plan, Work};
use random::Random;

const SEED: u64 = 9_687_290;
const TREES: usize = 2_500;
const MOST_TIPS: usize = 200;
const MOST_COLUMNS: usize = 4;
const MOST_LEVELS: usize = 6;

/// A random table without handed rows: any tree, costs that need not be symmetric, cells of one or more states.
fn whole(random: &mut Random) -> Piece {
    let tips = 1 + random.below(MOST_TIPS);
    let (left, right) = random.tree(tips);
    let states = 2 + random.below(15);
    let dearest = random.pick(&[1, 3, 999]);
    let costs = (0..states * states)
        .map(|i| if i % (states + 1) == 0 { 0 } else { random.below(dearest + 1) as u16 })
        .collect();
    let columns = random.below(MOST_COLUMNS + 1);
    let cells = (0..tips * columns)
        .map(|_| if random.once_in(4) { random.set(states) } else { 1 << random.below(states) })
        .collect();
    Piece { left, right, states, costs, columns, cells, handed: Vec::new() }
}

/// Starts for the root of the whole: none, and one that its row does not bar.
fn starts(whole: &Piece, column: usize, random: &mut Random, work: Work) -> [Start; 2] {
    let single = whole.nodes() == 1;
    let open: u64 = if single { whole.cells[column].into() } else { (1 << whole.states) - 1 };
    let members: Vec<u64> = (0..64).filter(|x| open >> x & 1 == 1).collect();
    let state = random.pick(&members);
    let given = match work {
        Work::Labels => state,
        Work::Sets => open & (random.word() | 1 << state),
    };
    [Start::Free, Start::Given(given)]
}

fn main() -> ExitCode {
    let mut random = Random(SEED);
    let (mut pieces, mut columns) = (0, 0);
    for tree in 0..TREES {
        let whole = whole(&mut random);
        let levels = random.below(MOST_LEVELS + 1);
        let plan = Plan::random(&whole, levels, &mut random);
        pieces += plan.pieces();
        columns += whole.columns;
        let mut same = scores(&plan, &whole) == scores(&Plan::Whole, &whole);
        same &= send_up(&plan, &whole) == send_up(&Plan::Whole, &whole);
        for column in 0..whole.columns {
            for work in [Work::Labels, Work::Sets] {
                for start in starts(&whole, column, &mut random, work) {
                    let put_together = work.come_down(&plan, &whole, column, start);
                    same &= put_together == work.come_down(&Plan::Whole, &whole, column, start);
                }
            }
        }
        if !same {
            println!("compare_cuts: tree {tree} of seed {SEED} comes out otherwise in pieces: {whole:?}");
            return ExitCode::FAILURE;
        }
    }
    println!(
        "compare_cuts: seed {SEED}, {TREES} trees in {pieces} pieces, {columns} columns: 0 differences, none refused"
    );
    ExitCode::SUCCESS
}
