//! Compares the five calls with a scorer that tries all labellings, on random small tables and on damaged ones.
//!
//! Everything lent, and a little behind it, is filled with a pattern before a call; the answer and every entry afterwards
//! must be as the rules say: written as far as they say when done, and as before beyond that or when refused.

#[path = "../common/brute.rs"]
mod brute;
mod cases;
mod damage;
#[path = "../common/random.rs"]
mod random;

use std::fmt::Debug;
use std::panic::{catch_unwind, AssertUnwindSafe};
use std::process::ExitCode;

use brute::{Done, Input, Outcome, Refused, Room};
use cases::Case;
use fernijster::{Refusal, Start, Table};
use random::Random;

const SEED: u64 = 2_529_987;
const TABLES: usize = 25_000;
/// Entries that stand behind each lent list and are not lent.
const BEHIND: usize = 4;
const CALLS: [&str; 5] = ["score", "label", "sets", "hand_up", "count"];

/// The numbers that each call can give.
const GIVEN: [&[usize]; 5] = [
    &[0, 1, 2, 3, 4, 5, 8],
    &[0, 1, 2, 3, 4, 5, 6, 8],
    &[0, 1, 2, 3, 4, 5, 6, 8],
    &[0, 1, 2, 3, 4, 5, 6, 8],
    &[0, 1, 2, 3, 4, 6, 7, 8],
];

/// How often each call gave each number.
type Tally = [[usize; 9]; 5];

fn main() -> ExitCode {
    let mut random = Random(SEED);
    let mut tally = Tally::default();
    for i in 0..2 * TABLES {
        let mut case = cases::sound(&mut random);
        if i >= TABLES {
            damage::damage(&mut case, &mut random);
        }
        if let Err(difference) = compare(&case, &mut random, &mut tally) {
            println!("{difference}\nin table {i} of seed {SEED}: {case:#?}\ncompare_calls: 1 difference");
            return ExitCode::FAILURE;
        }
    }
    report(&tally)
}

/// Prints what was compared. An answer that never came up would be one that nothing is known of.
fn report(tally: &Tally) -> ExitCode {
    println!("compare_calls: seed {SEED}, {TABLES} sound tables, {TABLES} damaged tables; answers by number:");
    println!("{:<8}{}", "", (0..9).map(|number| format!("{number:>8}")).collect::<String>());
    for (name, given) in CALLS.iter().zip(tally) {
        println!("{name:<8}{}", given.map(|times| format!("{times:>8}")).concat());
    }
    let unseen = (0..5).any(|call| GIVEN[call].iter().any(|&number| tally[call][number] == 0));
    if unseen {
        println!("compare_calls: an answer that a call can give was never given");
        return ExitCode::FAILURE;
    }
    println!("compare_calls: {} comparisons, 0 differences", tally.as_flattened().iter().sum::<usize>());
    ExitCode::SUCCESS
}

/// An answer, and the lists after the call.
#[derive(Debug, PartialEq)]
struct After {
    word: u64,
    output: Vec<u64>,
    rows: Vec<u64>,
}

/// The lists before the call, what is lent of them and what stands behind it.
struct Before {
    output: Vec<u64>,
    rows: Vec<u64>,
}

/// Makes the five calls on a case, and compares each.
fn compare(case: &Case, random: &mut Random, tally: &mut Tally) -> Result<(), String> {
    let kept = case.input.clone();
    for call in 0..5 {
        let before = Before {
            output: pattern(case.outputs[call] + BEHIND, [32, 8, 16, 32, 16][call], random),
            rows: pattern(case.rows + BEHIND, 32, random),
        };
        let both = || (expected(call, case, &before), made(call, case, &before));
        let (expected, made) = catch_unwind(AssertUnwindSafe(both))
            .map_err(|_| format!("{}: no answer at all, see the message on standard error", CALLS[call]))?;
        same(CALLS[call], &expected, &made)?;
        tally[call][(made.word & 0xff) as usize] += 1;
    }
    same("what the calls were given to read", &kept, &case.input)
}

fn same<T: Debug + PartialEq>(what: &str, expected: &T, made: &T) -> Result<(), String> {
    if expected == made {
        return Ok(());
    }
    Err(format!("{what}: expected {expected:?}\nbut the library gave {made:?}"))
}

/// Numbers of so many bits with the highest set, so that they are no state, no score and hardly ever a set.
fn pattern(length: usize, bits: u32, random: &mut Random) -> Vec<u64> {
    (0..length).map(|_| random.word() >> (64 - bits) | 1 << (bits - 1)).collect()
}

/// What the rules say of a call.
fn expected(call: usize, case: &Case, before: &Before) -> After {
    let room = Room { output: before.output.len() - BEHIND, rows: before.rows.len() - BEHIND };
    let input = &case.input;
    let outcome: Outcome = match call {
        0 => brute::score(input, room),
        1 => brute::label(input, case.column, case.state, room),
        2 => brute::sets(input, case.column, case.set, room),
        3 => brute::hand_up(input, case.column, room),
        _ => brute::count(input, case.column, room),
    };
    match outcome {
        Err(Refused { number, carried }) => {
            After { word: carried << 8 | number, output: before.output.clone(), rows: before.rows.clone() }
        }
        Ok(Done { carried, output, rows }) => {
            After { word: carried << 8, output: written(&before.output, &output), rows: written(&before.rows, &rows) }
        }
    }
}

/// A list whose front is written over.
fn written(before: &[u64], front: &[u64]) -> Vec<u64> {
    [front, &before[front.len()..]].concat()
}

/// What the library does.
fn made(call: usize, case: &Case, before: &Before) -> After {
    let table = table(&case.input);
    let (column, state, set) = (case.column, start(case.state), start(case.set));
    match call {
        0 => after(before, |out, rows| fernijster::score(&table, out, rows).map(|()| 0)),
        1 => after(before, |out, rows| fernijster::label(&table, column, state, out, rows).map(|()| 0)),
        2 => after(before, |out, rows| fernijster::sets(&table, column, set, out, rows).map(|()| 0)),
        3 => after(before, |out, rows| fernijster::hand_up(&table, column, out, rows).map(|()| 0)),
        _ => after(before, |out, _| fernijster::count(&table, column, out)),
    }
}

/// Makes a call on copies of the lists.
fn after<T>(before: &Before, call: impl FnOnce(&mut [T], &mut [u32]) -> Result<u64, Refusal>) -> After
where
    T: Copy + Into<u64> + TryFrom<u64, Error: Debug>,
{
    let mut output: Vec<T> = narrowed(&before.output);
    let mut rows: Vec<u32> = narrowed(&before.rows);
    let (lent_output, lent_rows) = (output.len() - BEHIND, rows.len() - BEHIND);
    let answer = call(&mut output[..lent_output], &mut rows[..lent_rows]);
    After { word: word(answer), output: widened(&output), rows: widened(&rows) }
}

fn narrowed<T: TryFrom<u64, Error: Debug>>(list: &[u64]) -> Vec<T> {
    list.iter().map(|&entry| T::try_from(entry).expect("a pattern fits its list")).collect()
}

fn widened<T: Copy + Into<u64>>(list: &[T]) -> Vec<u64> {
    list.iter().map(|&entry| entry.into()).collect()
}

/// The result word that an answer stands for; the wrapper reads no two words alike.
fn word(answer: Result<u64, Refusal>) -> u64 {
    match answer {
        Ok(carried) => carried << 8,
        Err(Refusal::Shape { node }) => node << 8 | 2,
        Err(refusal) => refusal.number(),
    }
}

fn table(input: &Input) -> Table<'_> {
    Table {
        left: &input.left,
        right: &input.right,
        states: input.s,
        costs: &input.costs,
        columns: input.c,
        cells: &input.cells,
        handed: &input.handed,
    }
}

fn start(given: Option<u64>) -> Start {
    given.map_or(Start::Free, Start::Given)
}
