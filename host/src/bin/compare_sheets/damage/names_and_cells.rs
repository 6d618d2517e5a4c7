//! Damages to the names and to the cell lines.

use super::{any, change, put_in, PartDamage};
use crate::draft::{name_of, Draft, CELLS, NAMES, SYMBOLS, TREE};
use crate::random::Random;

pub const KINDS: &[(&str, PartDamage)] = &[
    ("name of another", name_of_another),
    ("name of another, in the tree too", name_of_another_everywhere),
    ("name in other case", name_in_other_case),
    ("name with a byte that names have not", name_with_other_byte),
    ("name with a space at its side", name_with_space),
    ("empty name", empty_name),
    ("name about 32 long", long_name),
    ("name left out", name_left_out),
    ("name too many", name_too_many),
    ("name that the tree has not", name_beside_the_tree),
    ("name that only the tree has", name_in_the_tree_only),
    ("names in another order", names_swapped),
    ("unlisted letter in a cell", unlisted_letter),
    ("small letter in a cell", small_letter),
    ("space in a cell", space_in_a_cell),
    ("any unlisted sign in a cell", unlisted_sign),
    ("cell line one longer", cells_longer),
    ("cell line one shorter", cells_shorter),
    ("cell line longer and unlisted", cells_longer_and_unlisted),
    ("cell line shorter and unlisted", cells_shorter_and_unlisted),
    ("cell line spaced out", cells_spaced),
    ("empty cell line", cells_empty),
    ("cell line left out", cells_left_out),
    ("cell line too many", cells_too_many),
    ("all cell lines left out", all_cells_left_out),
];

// Names.

fn name_of_another(draft: &mut Draft, random: &mut Random) {
    let (Some(i), Some(other)) = (any(&draft.parts[NAMES], random), any(&draft.parts[NAMES], random)) else {
        return;
    };
    draft.parts[NAMES][i] = draft.parts[NAMES][other].clone();
}

fn name_of_another_everywhere(draft: &mut Draft, random: &mut Random) {
    let (Some(i), Some(other)) = (any(&draft.parts[NAMES], random), any(&draft.parts[NAMES], random)) else {
        return;
    };
    let name = draft.parts[NAMES][other].clone();
    renamed(draft, i, name);
}

/// Renames in the tree too, where there is one.
fn renamed(draft: &mut Draft, i: usize, name: Vec<u8>) {
    match draft.parts[TREE].is_empty() {
        true => draft.parts[NAMES][i] = name,
        false => draft.rename(i, name),
    }
}

/// In the list of names, and at times in the tree too.
fn name_in_other_case(draft: &mut Draft, random: &mut Random) {
    let Some(i) = any(&draft.parts[NAMES], random) else { return };
    let mut other = draft.parts[NAMES][i].clone();
    let Some(at) = any(&other, random) else { return };
    other[at] ^= if other[at].is_ascii_alphabetic() { 32 } else { 0 };
    match random.once_in(3) {
        true => renamed(draft, i, other),
        false => draft.parts[NAMES][i] = other,
    }
}

fn name_with_other_byte(draft: &mut Draft, random: &mut Random) {
    let byte = random.pick(b" !\"#$%&'()*+,/:;<=>?@[\\]^`{|}~");
    change(&mut draft.parts[NAMES], random, |name, random| put_in(name, &[byte], random))
}

fn name_with_space(draft: &mut Draft, random: &mut Random) {
    change(&mut draft.parts[NAMES], random, |name, random| match random.once_in(2) {
        true => name.push(b' '),
        false => name.insert(0, b' '),
    })
}

fn empty_name(draft: &mut Draft, random: &mut Random) {
    change(&mut draft.parts[NAMES], random, |name, _| name.clear())
}

/// 31 to 34 letters, in the tree too: up to 32 the sheet stays sound.
fn long_name(draft: &mut Draft, random: &mut Random) {
    let Some(i) = any(&draft.parts[NAMES], random) else { return };
    let name = name_of(31 + random.below(4), random);
    renamed(draft, i, name);
}

fn name_left_out(draft: &mut Draft, random: &mut Random) {
    let Some(i) = any(&draft.parts[NAMES], random) else { return };
    draft.parts[NAMES].remove(i);
}

fn name_too_many(draft: &mut Draft, random: &mut Random) {
    let at = random.below(draft.parts[NAMES].len() + 1);
    let name = name_of(5, random);
    draft.parts[NAMES].insert(at, name);
}

/// A name more with its cells, counted.
fn name_beside_the_tree(draft: &mut Draft, random: &mut Random) {
    let Some(cells) = any(&draft.parts[CELLS], random) else { return };
    let (name, cells) = (name_of(6, random), draft.parts[CELLS][cells].clone());
    draft.parts[NAMES].push(name);
    draft.parts[CELLS].push(cells);
    draft.recount();
}

/// A name taken out with its cells, counted.
fn name_in_the_tree_only(draft: &mut Draft, random: &mut Random) {
    if draft.parts[NAMES].len() < 2 || draft.parts[CELLS].len() < 2 {
        return;
    }
    let i = random.below(draft.parts[NAMES].len());
    draft.parts[NAMES].remove(i);
    draft.parts[CELLS].pop();
    draft.recount();
}

/// Another order of the names, which a sheet may have: other tips then have the cells.
fn names_swapped(draft: &mut Draft, random: &mut Random) {
    let n = draft.parts[NAMES].len();
    if n < 2 {
        return;
    }
    draft.parts[NAMES].swap(random.below(n), random.below(n));
}

// Cells.

/// Changes a cell of any line that has one.
fn cell(draft: &mut Draft, random: &mut Random, change: impl FnOnce(&mut u8, &mut Random)) {
    let mut cells: Vec<&mut u8> = draft.parts[CELLS].iter_mut().flatten().collect();
    let Some(i) = any(&cells, random) else { return };
    change(cells[i], random);
}

fn unlisted_letter(draft: &mut Draft, random: &mut Random) {
    cell(draft, random, |symbol, random| *symbol = random.pick(b"EFIJLOPQXZ"))
}

fn small_letter(draft: &mut Draft, random: &mut Random) {
    cell(draft, random, |symbol, random| *symbol = random.pick(SYMBOLS).to_ascii_lowercase())
}

fn space_in_a_cell(draft: &mut Draft, random: &mut Random) {
    cell(draft, random, |symbol, _| *symbol = b' ')
}

fn unlisted_sign(draft: &mut Draft, random: &mut Random) {
    cell(draft, random, |symbol, random| *symbol = random.pick(b"!\"#$%&'()*+,./0123456789:;<=>@[\\]^_`{|}~"))
}

fn cells_longer(draft: &mut Draft, random: &mut Random) {
    change(&mut draft.parts[CELLS], random, |line, random| {
        let symbol = random.pick(SYMBOLS);
        put_in(line, &[symbol], random);
    })
}

fn cells_shorter(draft: &mut Draft, random: &mut Random) {
    change(&mut draft.parts[CELLS], random, |line, _| line.truncate(line.len().saturating_sub(1)))
}

fn cells_longer_and_unlisted(draft: &mut Draft, random: &mut Random) {
    change(&mut draft.parts[CELLS], random, |line, random| put_in(line, b"J", random))
}

fn cells_shorter_and_unlisted(draft: &mut Draft, random: &mut Random) {
    change(&mut draft.parts[CELLS], random, |line, random| {
        line.pop();
        let at = any(line, random);
        at.into_iter().for_each(|at| line[at] = b'J');
    })
}

fn cells_spaced(draft: &mut Draft, random: &mut Random) {
    change(&mut draft.parts[CELLS], random, |line, random| match random.below(3) {
        0 => line.push(b' '),
        1 => line.insert(0, b' '),
        _ => put_in(line, b"   ", random),
    })
}

fn cells_empty(draft: &mut Draft, random: &mut Random) {
    change(&mut draft.parts[CELLS], random, |line, _| line.clear())
}

fn cells_left_out(draft: &mut Draft, random: &mut Random) {
    let Some(i) = any(&draft.parts[CELLS], random) else { return };
    draft.parts[CELLS].remove(i);
}

fn cells_too_many(draft: &mut Draft, random: &mut Random) {
    let Some(i) = any(&draft.parts[CELLS], random) else { return };
    let line = draft.parts[CELLS][i].clone();
    draft.parts[CELLS].push(line);
}

fn all_cells_left_out(draft: &mut Draft, _: &mut Random) {
    draft.parts[CELLS].clear();
}
