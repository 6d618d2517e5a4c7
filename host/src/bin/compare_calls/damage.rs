//! Damages, a list of them for each refusal. Whether and how a damaged table is refused, the rules say.

use crate::brute::{BARRED, MOST_HANDED};
use crate::cases::{needed, Case};
use crate::random::Random;

type Damage = fn(&mut Case, &mut Random);

const DAMAGES: [&[Damage]; 8] = [
    &[left_length, right_length, both_lengths, over_long],
    &[
        child_anywhere,
        child_not_below,
        child_far,
        child_twice,
        child_of_another,
        tip_made_inner,
        inner_made_tip,
        row_out_of_range,
        row_of_another,
        other_kind,
        nodes_swapped,
    ],
    &[states, states_and_costs, costs_length, cost_over, diagonal],
    &[columns, columns_and_cells, cells_length, cell_empty, cell_high],
    &[handed_length, handed_over, handed_barred],
    &[column, state_start, set_start],
    &[not_unit],
    &[output_short, rows_short],
];

/// One to three damages, each of any kind.
pub fn damage(case: &mut Case, random: &mut Random) {
    for _ in 0..1 + random.below(3) {
        let kind = random.pick(&DAMAGES);
        random.pick(kind)(case, random);
    }
}

/// Any element of a list, if it has one.
fn any<'a, T>(list: &'a mut [T], random: &mut Random) -> Option<&'a mut T> {
    match list.len() {
        0 => None,
        n => list.get_mut(random.below(n)),
    }
}

/// Makes a list one shorter, one longer or empty.
fn resize<T: Clone>(list: &mut Vec<T>, filler: T, random: &mut Random) {
    match random.below(5) {
        0 | 1 => drop(list.pop()),
        2 | 3 => list.push(filler),
        _ => list.clear(),
    }
}

// SIZE.

fn left_length(case: &mut Case, random: &mut Random) {
    resize(&mut case.input.left, 65_535, random);
}

fn right_length(case: &mut Case, random: &mut Random) {
    resize(&mut case.input.right, 0, random);
}

fn both_lengths(case: &mut Case, random: &mut Random) {
    let length = random.pick(&[0, 1, case.input.left.len().saturating_sub(1), case.input.left.len() + 1]);
    case.input.left.resize(length, 65_535);
    case.input.right.resize(length, 0);
}

fn over_long(case: &mut Case, random: &mut Random) {
    let length = random.pick(&[1_023, 1_024, 1_025]);
    case.input.left.resize(length, 65_535);
    case.input.right.resize(length, 0);
}

// SHAPE.

/// Any node of a kind, tip or inner, that has both its entries.
fn node(case: &Case, tip: bool, random: &mut Random) -> Option<usize> {
    let n = case.input.left.len().min(case.input.right.len());
    let mut nodes: Vec<usize> = (0..n).filter(|&v| (case.input.left[v] == 65_535) == tip).collect();
    any(&mut nodes, random).copied()
}

/// Puts a number that depends on the node for a child of an inner node.
fn put_child(case: &mut Case, random: &mut Random, child: impl FnOnce(usize, &mut Random) -> u16) {
    let Some(v) = node(case, false, random) else { return };
    let number = child(v, random);
    let list = if random.once_in(2) { &mut case.input.left } else { &mut case.input.right };
    list[v] = number;
}

fn child_anywhere(case: &mut Case, random: &mut Random) {
    let n = case.input.left.len();
    put_child(case, random, |_, random| random.below(n + 2) as u16);
}

fn child_not_below(case: &mut Case, random: &mut Random) {
    let n = case.input.left.len();
    put_child(case, random, |v, random| (v + random.below(n - v + 1)) as u16);
}

fn child_far(case: &mut Case, random: &mut Random) {
    put_child(case, random, |_, random| random.pick(&[1_023, 32_767, 32_768, 65_534, 65_535]));
}

fn child_twice(case: &mut Case, random: &mut Random) {
    let Some(v) = node(case, false, random) else { return };
    match random.once_in(2) {
        true => case.input.left[v] = case.input.right[v],
        false => case.input.right[v] = case.input.left[v],
    }
}

fn child_of_another(case: &mut Case, random: &mut Random) {
    let Some(other) = node(case, false, random) else { return };
    let child = random.pick(&[case.input.left[other], case.input.right[other]]);
    put_child(case, random, |_, _| child);
}

fn tip_made_inner(case: &mut Case, random: &mut Random) {
    let Some(v) = node(case, true, random) else { return };
    case.input.left[v] = random.below(case.input.left.len()) as u16;
}

fn inner_made_tip(case: &mut Case, random: &mut Random) {
    let Some(v) = node(case, false, random) else { return };
    case.input.left[v] = 65_535;
}

/// A row number at or beyond the number of tips, of one kind or the other.
fn row_out_of_range(case: &mut Case, random: &mut Random) {
    let Some(v) = node(case, true, random) else { return };
    let tips = case.input.left.len().div_ceil(2);
    case.input.right[v] = random.pick(&[0, 32_768]) + random.pick(&[1, tips, tips + 1, 32_767]) as u16;
}

fn row_of_another(case: &mut Case, random: &mut Random) {
    let (Some(v), Some(other)) = (node(case, true, random), node(case, true, random)) else { return };
    case.input.right[v] = case.input.right[other];
}

fn other_kind(case: &mut Case, random: &mut Random) {
    let Some(v) = node(case, true, random) else { return };
    case.input.right[v] ^= 32_768;
}

fn nodes_swapped(case: &mut Case, random: &mut Random) {
    let n = case.input.left.len().min(case.input.right.len());
    if n > 0 {
        let (v, w) = (random.below(n), random.below(n));
        case.input.left.swap(v, w);
        case.input.right.swap(v, w);
    }
}

// COSTS. The large numbers have squares that wrap.

fn states(case: &mut Case, random: &mut Random) {
    let s = case.input.s;
    case.input.s = random.pick(&[0, 1, 17, s.saturating_sub(1), s.saturating_add(1), 1 << 32, 1 << 32 | s, u64::MAX]);
}

/// A number of states out of range with a cost table that has its square, wrapped as it may be.
fn states_and_costs(case: &mut Case, random: &mut Random) {
    case.input.s = random.pick(&[0, 1, 17, 1 << 32]);
    case.input.costs = vec![0; case.input.s.wrapping_mul(case.input.s) as usize];
}

fn costs_length(case: &mut Case, random: &mut Random) {
    resize(&mut case.input.costs, 0, random);
}

fn cost_over(case: &mut Case, random: &mut Random) {
    let over = random.pick(&[1_000, 1_001, 65_535]);
    any(&mut case.input.costs, random).into_iter().for_each(|cost| *cost = over);
}

fn diagonal(case: &mut Case, random: &mut Random) {
    let x = random.below(case.input.s.clamp(1, 16) as usize);
    let at = x * case.input.s.min(16) as usize + x;
    case.input.costs.get_mut(at).into_iter().for_each(|cost| *cost = 1);
}

// CELLS. The large numbers have products that wrap.

fn columns(case: &mut Case, random: &mut Random) {
    let c = case.input.c;
    case.input.c = random.pick(&[
        c.saturating_sub(1),
        c.saturating_add(1),
        65_535,
        65_536,
        1 << 32 | c,
        1 << 62,
        1 << 63,
        u64::MAX,
    ]);
}

/// Too many columns with a cell for each, their number wrapped as it may be, unless that is beyond all memory.
fn columns_and_cells(case: &mut Case, random: &mut Random) {
    let t = case.input.cells.len() as u64 / case.input.c.max(1);
    case.input.c = random.pick(&[65_536, 1 << 62, 1 << 63]);
    let cells = t.wrapping_mul(case.input.c);
    if cells <= 6 * 65_536 {
        case.input.cells = vec![1; cells as usize];
    }
}

fn cells_length(case: &mut Case, random: &mut Random) {
    resize(&mut case.input.cells, 1, random);
}

fn cell_empty(case: &mut Case, random: &mut Random) {
    any(&mut case.input.cells, random).into_iter().for_each(|cell| *cell = 0);
}

/// A state at s or above, beside those of the cell.
fn cell_high(case: &mut Case, random: &mut Random) {
    let s = case.input.s.min(15) as usize;
    let between = s + random.below(16 - s);
    let high = 1 << random.pick(&[s, between, 15]);
    any(&mut case.input.cells, random).into_iter().for_each(|cell| *cell |= high);
}

// ROWS.

fn handed_length(case: &mut Case, random: &mut Random) {
    resize(&mut case.input.handed, 0, random);
}

fn handed_over(case: &mut Case, random: &mut Random) {
    let over = random.pick(&[MOST_HANDED + 1, BARRED / 2, BARRED - 1]);
    any(&mut case.input.handed, random).into_iter().for_each(|entry| *entry = over);
}

fn handed_barred(case: &mut Case, random: &mut Random) {
    let s = case.input.s.clamp(1, 16) as usize;
    let mut rows: Vec<&mut [u32]> = case.input.handed.chunks_mut(s).collect();
    any(&mut rows, random).into_iter().for_each(|row| row.fill(BARRED));
}

// WHICH. The large numbers look small when their upper half is cut off.

fn column(case: &mut Case, random: &mut Random) {
    let c = case.input.c;
    case.column = random.pick(&[c, c.saturating_add(1), 65_535, 1 << 32, u64::MAX]);
}

fn state_start(case: &mut Case, random: &mut Random) {
    let s = case.input.s.clamp(1, 16);
    let open = random.below(s as usize) as u64;
    case.state = Some(random.pick(&[open, s, s + open, 64 + open, 256 + open, 1 << 32 | open, u64::MAX - 1, u64::MAX]));
}

fn set_start(case: &mut Case, random: &mut Random) {
    let s = case.input.s.clamp(1, 15) as usize;
    let set = u64::from(random.set(s));
    let between = s + random.below(64 - s);
    let high = random.pick(&[s, between, 15, 16, 31, 32, 63]);
    case.set = Some(random.pick(&[0, set, set, set | 1 << high, 1 << high, u64::MAX - 1, u64::MAX]));
}

// NOT UNIT.

fn not_unit(case: &mut Case, random: &mut Random) {
    let cost = random.pick(&[0, 2, 999]);
    any(&mut case.input.costs, random).into_iter().for_each(|entry| *entry = cost);
}

// ROOM.

/// One output, or all of them, one entry shorter than needed.
fn output_short(case: &mut Case, random: &mut Random) {
    let only = random.below(10);
    for (i, needed) in needed(&case.input).into_iter().enumerate() {
        if only == i || only >= 5 {
            case.outputs[i] = case.outputs[i].min(needed.saturating_sub(1) as usize);
        }
    }
}

fn rows_short(case: &mut Case, random: &mut Random) {
    let needed = case.input.left.len() * case.input.s.min(16) as usize;
    case.rows = random.pick(&[0, needed.saturating_sub(1), needed.saturating_sub(1)]);
}
