//! Damages to the count lines.

use super::{change, PartDamage};
use crate::draft::{Draft, COLUMNS_COUNT, COSTS, COSTS_COUNT, COUNTS, NAMES_COUNT, TREE_COUNT};
use crate::random::Random;

pub const KINDS: &[(&str, PartDamage)] = &[
    ("count one more", one_more),
    ("count one less", one_less),
    ("count at an edge", at_an_edge),
    ("count with leading zeros", leading_zeros),
    ("count that wraps to the right one", wrapping),
    ("count of many digits", many_digits),
    ("count with a sign or point", sign),
    ("count with other spacing", spacing),
    ("count without digits", no_digits),
    ("count with a letter", letter),
    ("count with something behind", something_behind),
    ("count under another word", other_word),
    ("count in other case", other_case),
    ("count line left out", left_out),
    ("table behind costs 0", table_behind_0),
    ("costs 4 without a table", no_table_behind_4),
    ("count of no names", no_names),
];

/// Changes the word or the digits of a count line.
fn edit(draft: &mut Draft, random: &mut Random, edit: impl FnOnce(&str, &str, &mut Random) -> String) {
    let part = random.pick(&COUNTS);
    edit_of(draft, part, random, edit)
}

fn edit_of(draft: &mut Draft, part: usize, random: &mut Random, edit: impl FnOnce(&str, &str, &mut Random) -> String) {
    change(&mut draft.parts[part], random, |line, random| {
        let text = String::from_utf8_lossy(line).into_owned();
        let (word, digits) = text.split_once(' ').unwrap_or((&text, ""));
        *line = edit(word, digits, random).into_bytes();
    })
}

fn value(digits: &str) -> u128 {
    digits.parse().unwrap_or(0)
}

fn one_more(draft: &mut Draft, random: &mut Random) {
    edit(draft, random, |word, digits, _| format!("{word} {}", value(digits) + 1))
}

fn one_less(draft: &mut Draft, random: &mut Random) {
    edit(draft, random, |word, digits, _| format!("{word} {}", value(digits).saturating_sub(1)))
}

fn at_an_edge(draft: &mut Draft, random: &mut Random) {
    let part = random.pick(&COUNTS);
    let edges: &[u64] = match part {
        NAMES_COUNT => &[0, 1, 512, 513, 1_023],
        COLUMNS_COUNT => &[0, 1, 65_535, 65_536, 65_537],
        COSTS_COUNT => &[0, 1, 2, 3, 4, 5, 16, 400],
        _ => &[0, 1, 2, 10, 11],
    };
    let edge = random.pick(edges);
    edit_of(draft, part, random, |word, _, _| format!("{word} {edge}"))
}

fn leading_zeros(draft: &mut Draft, random: &mut Random) {
    edit(draft, random, |word, digits, random| format!("{word} {}{digits}", random.pick(&["0", "00", "0000000000"])))
}

/// A number that is the right one when its upper bits are cut off.
fn wrapping(draft: &mut Draft, random: &mut Random) {
    let bits = random.pick(&[8, 16, 32, 64]);
    edit(draft, random, |word, digits, _| format!("{word} {}", value(digits) + (1 << bits)))
}

fn many_digits(draft: &mut Draft, random: &mut Random) {
    let more = 4 + random.below(60);
    let digit = random.pick(&["0", "1", "9"]);
    edit(draft, random, |word, digits, _| format!("{word} {digits}{}", digit.repeat(more)))
}

fn sign(draft: &mut Draft, random: &mut Random) {
    edit(draft, random, |word, digits, random| match random.below(5) {
        0 => format!("{word} +{digits}"),
        1 => format!("{word} -{digits}"),
        2 => format!("{word} {digits}.0"),
        3 => format!("{word} 0x{digits}"),
        _ => format!("{word} {digits}e0"),
    })
}

fn spacing(draft: &mut Draft, random: &mut Random) {
    edit(draft, random, |word, digits, random| match random.below(4) {
        0 => format!("{word}  {digits}"),
        1 => format!("{word}{digits}"),
        2 => format!(" {word} {digits}"),
        _ => format!("{word} {digits} "),
    })
}

fn no_digits(draft: &mut Draft, random: &mut Random) {
    edit(draft, random, |word, _, random| match random.below(3) {
        0 => String::new(),
        1 => word.to_string(),
        _ => format!("{word} "),
    })
}

fn letter(draft: &mut Draft, random: &mut Random) {
    edit(draft, random, |word, digits, random| match random.below(3) {
        0 => format!("{word} {digits}O"),
        1 => format!("{word} l{digits}"),
        _ => format!("{word} ?"),
    })
}

fn something_behind(draft: &mut Draft, random: &mut Random) {
    let more = random.pick(&[" 0", ";", ",", ":", "\\", " names"]);
    edit(draft, random, |word, digits, _| format!("{word} {digits}{more}"))
}

fn other_word(draft: &mut Draft, random: &mut Random) {
    let other = random.pick(&["names", "columns", "costs", "tree", "name", "column", "trees", "", "states"]);
    edit(draft, random, |_, digits, _| format!("{other} {digits}"))
}

fn other_case(draft: &mut Draft, random: &mut Random) {
    edit(draft, random, |word, digits, random| match random.once_in(2) {
        true => format!("{} {digits}", word.to_uppercase()),
        false => format!("{} {digits}", word.replacen(['n', 'c', 't'], "C", 1)),
    })
}

fn left_out(draft: &mut Draft, random: &mut Random) {
    let part = random.pick(&COUNTS);
    draft.parts[part].pop();
}

fn table_behind_0(draft: &mut Draft, random: &mut Random) {
    if draft.parts[COSTS].is_empty() {
        draft.parts[COSTS] = crate::draft::costs(random);
    }
    edit_of(draft, COSTS_COUNT, random, |word, _, _| format!("{word} 0"))
}

fn no_table_behind_4(draft: &mut Draft, random: &mut Random) {
    draft.parts[COSTS].clear();
    edit_of(draft, COSTS_COUNT, random, |word, _, _| format!("{word} 4"))
}

/// No names and no cell lines, with a count that says so.
fn no_names(draft: &mut Draft, _: &mut Random) {
    for part in [NAMES_COUNT, COLUMNS_COUNT] {
        draft.parts[part + 1].clear();
    }
    draft.parts[NAMES_COUNT] = vec![b"names 0".to_vec()];
    draft.parts[TREE_COUNT + 1] = vec![b";".to_vec()];
}
