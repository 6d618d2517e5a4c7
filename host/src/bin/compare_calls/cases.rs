//! Random small tables that keep every rule, with what the calls are asked of them.

use crate::brute::{root_row, Input, BARRED, MOST_HANDED};
use crate::random::Random;

/// A table, and what the five calls are asked and lent.
#[derive(Clone, Debug)]
pub struct Case {
    pub input: Input,
    pub column: u64,
    /// The start of labelling, if any.
    pub state: Option<u64>,
    /// The start of the set call, if any.
    pub set: Option<u64>,
    /// How long the outputs are: scores, states, sets, the row handed up, the sets of counting.
    pub outputs: [usize; 5],
    /// How long the row room is.
    pub rows: usize,
}

/// A table that keeps every rule, a column and starts that it has, and room enough, at times more than enough.
pub fn sound(random: &mut Random) -> Case {
    let input = sound_input(random);
    let column = random.below(input.c.max(1) as usize) as u64;
    let open = open_states(&input, column);
    let state = (!random.once_in(3)).then(|| random.pick(&open));
    let set = (!random.once_in(3)).then(|| some_of(&open, random));
    let outputs = needed(&input).map(|length| length as usize + random.below(3));
    let rows = input.left.len() * input.s as usize + random.below(3);
    Case { input, column, state, set, outputs, rows }
}

/// How long the five outputs must be.
pub fn needed(input: &Input) -> [u64; 5] {
    let n = input.left.len() as u64;
    [input.c, n, n, input.s, n]
}

/// One table in eight has few tips and many states, the others up to 6 tips and 4 states.
fn sound_input(random: &mut Random) -> Input {
    let (tips, s) = match random.once_in(8) {
        true => (1 + random.below(3), 5 + random.below(12)),
        false => (1 + random.below(6), 2 + random.below(3)),
    };
    let c = random.pick(&[0, 1, 1, 2, 2, 3]);
    let (left, mut right) = random.tree(tips);
    let h = hand_some(&left, &mut right, random);
    Input {
        left,
        right,
        s: s as u64,
        costs: costs(s, random),
        c: c as u64,
        cells: (0..(tips - h) * c).map(|_| cell(s, random)).collect(),
        handed: (0..c * h).flat_map(|_| handed_row(s, random)).collect(),
    }
}

/// Makes handed tips of some symbol tips, but of none in half of the trees; gives their number.
fn hand_some(left: &[u16], right: &mut [u16], random: &mut Random) -> usize {
    let mut tips: Vec<usize> = (0..left.len()).filter(|&v| left[v] == 65_535).collect();
    let h = if random.once_in(2) { 0 } else { random.below(tips.len() + 1) };
    for k in random.order(h) {
        let v = tips.swap_remove(random.below(tips.len()));
        right[v] = 32_768 + k;
    }
    for (v, r) in tips.iter().zip(random.order(tips.len())) {
        right[*v] = r;
    }
    h
}

/// Unit costs in one table of three; else entry by entry from a range, low ones for many ties.
fn costs(s: usize, random: &mut Random) -> Vec<u16> {
    let most = random.pick(&[1, 3, 9, 999]);
    let unit = random.once_in(3);
    let entry = |random: &mut Random| match random.once_in(8) {
        true => most,
        false => random.below(most + 1),
    };
    let at = |i: usize| match (i / s == i % s, unit) {
        (true, _) => 0,
        (false, true) => 1,
        (false, false) => entry(random) as u16,
    };
    (0..s * s).map(at).collect()
}

/// One state, or any nonempty set.
fn cell(s: usize, random: &mut Random) -> u16 {
    match random.once_in(2) {
        true => 1 << random.below(s),
        false => random.set(s),
    }
}

/// A handed row: some entries barred but never all, some as large as may be.
fn handed_row(s: usize, random: &mut Random) -> Vec<u32> {
    let most = random.pick(&[0, 2, 999, MOST_HANDED]);
    let finite = |random: &mut Random| match random.once_in(8) {
        true => MOST_HANDED,
        false => random.below(most as usize + 1) as u32,
    };
    let mut row: Vec<u32> = (0..s).map(|_| if random.once_in(3) { BARRED } else { finite(random) }).collect();
    row[random.below(s)] = finite(random);
    row
}

/// The states that the root may be forced to. In a table without columns nothing can be asked, and any will do.
fn open_states(input: &Input, column: u64) -> Vec<u64> {
    let all = 0..input.s;
    if input.c == 0 {
        return all.collect();
    }
    let row = root_row(input, column);
    all.filter(|&x| row[x as usize] != BARRED).collect()
}

/// A nonempty set of some of these states.
fn some_of(states: &[u64], random: &mut Random) -> u64 {
    let first = random.pick(states);
    states.iter().filter(|_| random.once_in(2)).fold(1 << first, |set, x| set | 1 << x)
}
