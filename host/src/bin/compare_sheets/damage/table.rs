//! Damages to the cost lines.

use super::{any, change, PartDamage};
use crate::draft::{costs, Draft, COSTS};
use crate::random::Random;

pub const KINDS: &[(&str, PartDamage)] = &[
    ("cost of 999", cost_999),
    ("cost over 999", cost_over),
    ("cost that wraps to a small one", cost_wrapping),
    ("cost of many digits", cost_many_digits),
    ("diagonal not 0", diagonal),
    ("cost with leading zeros", leading_zeros),
    ("cost that is no number", no_number),
    ("cost left out", cost_left_out),
    ("cost too many", cost_too_many),
    ("costs with other spacing", spacing),
    ("costs parted by commas", commas),
    ("cost line left out", line_left_out),
    ("cost line too many", line_too_many),
    ("empty cost line", line_empty),
    ("cost lines swapped", lines_swapped),
];

/// A sheet with a cost table: its own, or one that is put in and counted.
fn table(draft: &mut Draft, random: &mut Random) {
    if draft.parts[COSTS].is_empty() {
        draft.parts[COSTS] = costs(random);
        draft.recount();
    }
}

/// Changes any cost line, as its words.
fn words(draft: &mut Draft, random: &mut Random, edit: impl FnOnce(usize, &mut Vec<String>, &mut Random)) {
    table(draft, random);
    let Some(i) = any(&draft.parts[COSTS], random) else { return };
    let line = String::from_utf8_lossy(&draft.parts[COSTS][i]).into_owned();
    let mut words: Vec<String> = line.split(' ').map(str::to_string).collect();
    edit(i, &mut words, random);
    draft.parts[COSTS][i] = words.join(" ").into_bytes();
}

/// Changes any word of any cost line.
fn word(draft: &mut Draft, random: &mut Random, edit: impl FnOnce(&mut String, &mut Random)) {
    words(draft, random, |_, words, random| {
        change(words, random, edit);
    })
}

/// The largest cost there is, off the diagonal.
fn cost_999(draft: &mut Draft, random: &mut Random) {
    words(draft, random, |i, words, random| {
        let n = words.len();
        words[(i + 1 + random.below(3)) % n] = "999".to_string();
    })
}

fn cost_over(draft: &mut Draft, random: &mut Random) {
    word(draft, random, |word, random| *word = random.pick(&["1000", "1001", "9999", "65535", "10000"]).to_string())
}

fn cost_wrapping(draft: &mut Draft, random: &mut Random) {
    let bits = random.pick(&[8, 16, 32, 64]);
    word(draft, random, |word, _| *word = (word.parse().unwrap_or(0) + (1u128 << bits)).to_string())
}

fn cost_many_digits(draft: &mut Draft, random: &mut Random) {
    let digits = 4 + random.below(40);
    word(draft, random, |word, random| *word = random.pick(&["1", "9"]).repeat(digits))
}

fn diagonal(draft: &mut Draft, random: &mut Random) {
    words(draft, random, |i, words, random| {
        if i < words.len() {
            words[i] = random.pick(&["1", "7", "999"]).to_string();
        }
    })
}

fn leading_zeros(draft: &mut Draft, random: &mut Random) {
    word(draft, random, |word, random| word.insert_str(0, random.pick(&["0", "00", "0000"])))
}

fn no_number(draft: &mut Draft, random: &mut Random) {
    word(draft, random, |word, random| match random.below(4) {
        0 => word.insert_str(0, random.pick(&["-", "+", "."])),
        1 => word.push_str(random.pick(&[".0", "e0", "O", ",", ";"])),
        2 => *word = random.pick(&["A", "x", "-", "?", "inf", "0x1"]).to_string(),
        _ => word.clear(),
    })
}

fn cost_left_out(draft: &mut Draft, random: &mut Random) {
    words(draft, random, |_, words, random| {
        words.remove(random.below(words.len()));
    })
}

fn cost_too_many(draft: &mut Draft, random: &mut Random) {
    words(draft, random, |_, words, random| words.insert(random.below(words.len() + 1), "0".to_string()))
}

fn spacing(draft: &mut Draft, random: &mut Random) {
    table(draft, random);
    change(&mut draft.parts[COSTS], random, |line, random| match random.below(4) {
        0 => line.push(b' '),
        1 => line.insert(0, b' '),
        2 => line.retain(|&byte| byte != b' '),
        _ => {
            let at = line.iter().position(|&byte| byte == b' ').unwrap_or(0);
            line.insert(at, b' ');
        }
    })
}

fn commas(draft: &mut Draft, random: &mut Random) {
    table(draft, random);
    change(&mut draft.parts[COSTS], random, |line, _| {
        line.iter_mut().filter(|byte| **byte == b' ').for_each(|byte| *byte = b',');
    })
}

fn line_left_out(draft: &mut Draft, random: &mut Random) {
    table(draft, random);
    let Some(i) = any(&draft.parts[COSTS], random) else { return };
    draft.parts[COSTS].remove(i);
}

fn line_too_many(draft: &mut Draft, random: &mut Random) {
    table(draft, random);
    draft.parts[COSTS].push(b"1 1 1 1".to_vec());
}

fn line_empty(draft: &mut Draft, random: &mut Random) {
    table(draft, random);
    change(&mut draft.parts[COSTS], random, |line, _| line.clear())
}

fn lines_swapped(draft: &mut Draft, random: &mut Random) {
    table(draft, random);
    let n = draft.parts[COSTS].len();
    draft.parts[COSTS].swap(random.below(n), random.below(n));
}
