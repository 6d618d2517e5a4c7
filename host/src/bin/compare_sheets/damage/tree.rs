//! Damages to the tree line.

use super::{any, put_in, PartDamage};
use crate::draft::{names_of, Draft, TREE};
use crate::random::Random;

pub const KINDS: &[(&str, PartDamage)] = &[
    ("tree name unknown", unknown),
    ("tree name for another", for_another),
    ("tree name written twice", twice),
    ("tree name left out", left_out),
    ("tree name beside an unknown one", beside_unknown),
    ("tree name in other case", other_case),
    ("tree name one letter longer", longer),
    ("tree name one letter shorter", shorter),
    ("tree names run together", run_together),
    ("tree bracket left out", bracket_left_out),
    ("tree bracket too many", bracket_too_many),
    ("tree bracket turned", bracket_turned),
    ("tree comma left out", comma_left_out),
    ("tree comma too many", comma_too_many),
    ("tree without semicolon", no_semicolon),
    ("tree with a semicolon too many", semicolon_too_many),
    ("tree with something behind its semicolon", behind_semicolon),
    ("tree with a space", space),
    ("tree with a length", length),
    ("tree with an inner name", inner_name),
    ("tree with one name in brackets", bracketed_name),
    ("tree in brackets as a whole", bracketed_whole),
    ("tree with three in a pair", three),
    ("tree with an empty pair", empty_pair),
    ("tree nested deep", deep),
    ("tree with a comment", comment),
    ("tree with a name in quotes", quotes),
    ("tree of other brackets", other_brackets),
    ("tree line empty", empty),
    ("tree line of a semicolon", only_semicolon),
    ("tree line of its signs in any order", any_order),
    ("tree line cut off", cut_off),
    ("tree line left out", line_left_out),
    ("tree line twice", line_twice),
    ("tree line in two", line_in_two),
    ("tree in another order", turned_around),
];

/// Changes the tree line, if there is one.
fn line(draft: &mut Draft, random: &mut Random, edit: impl FnOnce(&mut Vec<u8>, &mut Random)) {
    let Some(line) = draft.parts[TREE].first_mut() else { return };
    edit(line, random);
}

/// Puts another text for any name of the tree line.
fn name(draft: &mut Draft, random: &mut Random, edit: impl FnOnce(&[u8], &mut Random) -> Vec<u8>) {
    let Some(line) = draft.parts[TREE].first_mut() else { return };
    let places = names_of(line);
    let Some(i) = any(&places, random) else { return };
    let (at, length) = places[i];
    let text = edit(&line[at..at + length], random);
    line.splice(at..at + length, text);
}

/// The places of a sign in the tree line.
fn places(line: &[u8], signs: &[u8]) -> Vec<usize> {
    (0..line.len()).filter(|&at| signs.contains(&line[at])).collect()
}

/// Puts another text for any of these signs in the tree line.
fn sign(draft: &mut Draft, signs: &[u8], random: &mut Random, edit: impl FnOnce(u8) -> Vec<u8>) {
    let Some(line) = draft.parts[TREE].first_mut() else { return };
    let places = places(line, signs);
    let Some(i) = any(&places, random) else { return };
    let at = places[i];
    let text = edit(line[at]);
    line.splice(at..=at, text);
}

/// Any name that the tree line has.
fn some_name(draft: &Draft, random: &mut Random) -> Option<Vec<u8>> {
    let line = draft.parts[TREE].first()?;
    let places = names_of(line);
    let (at, length) = places[any(&places, random)?];
    Some(line[at..at + length].to_vec())
}

// Names.

fn unknown(draft: &mut Draft, random: &mut Random) {
    name(draft, random, |_, random| random.pick(&[&b"nobody"[..], b"1", b"_._", b"Vitis"]).to_vec())
}

fn for_another(draft: &mut Draft, random: &mut Random) {
    let Some(other) = some_name(draft, random) else { return };
    name(draft, random, |_, _| other)
}

fn twice(draft: &mut Draft, random: &mut Random) {
    name(draft, random, |name, _| [b"(", name, b",", name, b")"].concat())
}

/// A pair of two names becomes one of them.
fn left_out(draft: &mut Draft, random: &mut Random) {
    let keep = random.below(2);
    line(draft, random, |line, random| {
        let is_pair = |at: &usize| {
            let end = line[at + 1..].iter().position(|byte| b"()".contains(byte)).map(|end| at + 1 + end);
            end.is_some_and(|end| line[end] == b')')
        };
        let pairs: Vec<usize> = places(line, b"(").into_iter().filter(is_pair).collect();
        let Some(i) = any(&pairs, random) else { return };
        let at = pairs[i];
        let end = at + line[at..].iter().position(|&byte| byte == b')').unwrap_or(0);
        let names: Vec<Vec<u8>> = line[at + 1..end].split(|&byte| byte == b',').map(<[u8]>::to_vec).collect();
        let kept = names[keep % names.len()].clone();
        line.splice(at..=end, kept);
    })
}

fn beside_unknown(draft: &mut Draft, random: &mut Random) {
    name(draft, random, |name, random| match random.once_in(2) {
        true => [b"(", name, b",nobody)"].concat(),
        false => [b"(nobody,", name, b")"].concat(),
    })
}

fn other_case(draft: &mut Draft, random: &mut Random) {
    name(draft, random, |name, _| {
        name.iter().map(|byte| if byte.is_ascii_alphabetic() { byte ^ 32 } else { *byte }).collect()
    })
}

fn longer(draft: &mut Draft, random: &mut Random) {
    name(draft, random, |name, random| match random.once_in(2) {
        true => [name, b"x"].concat(),
        false => [b"x", name].concat(),
    })
}

fn shorter(draft: &mut Draft, random: &mut Random) {
    name(draft, random, |name, random| match random.once_in(2) {
        true => name[1..].to_vec(),
        false => name[..name.len() - 1].to_vec(),
    })
}

fn run_together(draft: &mut Draft, random: &mut Random) {
    let Some(other) = some_name(draft, random) else { return };
    name(draft, random, |name, _| [name, &other].concat())
}

// Brackets, commas, semicolons.

fn bracket_left_out(draft: &mut Draft, random: &mut Random) {
    sign(draft, b"()", random, |_| Vec::new())
}

fn bracket_too_many(draft: &mut Draft, random: &mut Random) {
    let bracket = random.pick(b"()");
    line(draft, random, |line, random| put_in(line, &[bracket], random))
}

fn bracket_turned(draft: &mut Draft, random: &mut Random) {
    sign(draft, b"()", random, |bracket| vec![if bracket == b'(' { b')' } else { b'(' }])
}

fn comma_left_out(draft: &mut Draft, random: &mut Random) {
    sign(draft, b",", random, |_| Vec::new())
}

fn comma_too_many(draft: &mut Draft, random: &mut Random) {
    line(draft, random, |line, random| put_in(line, b",", random))
}

fn no_semicolon(draft: &mut Draft, random: &mut Random) {
    sign(draft, b";", random, |_| Vec::new())
}

fn semicolon_too_many(draft: &mut Draft, random: &mut Random) {
    line(draft, random, |line, random| put_in(line, b";", random))
}

fn behind_semicolon(draft: &mut Draft, random: &mut Random) {
    let more = random.pick(&[&b";"[..], b" ", b"a", b"()", b",", b")", b"(a,b);", b"#"]);
    line(draft, random, |line, _| line.extend(more))
}

// What other tree texts have.

fn space(draft: &mut Draft, random: &mut Random) {
    line(draft, random, |line, random| put_in(line, b" ", random))
}

fn length(draft: &mut Draft, random: &mut Random) {
    let length = random.pick(&[&b":1"[..], b":0.25", b":", b":1e-3"]);
    match random.once_in(3) {
        true => sign(draft, b")", random, |_| [b")", length].concat()),
        false => name(draft, random, |name, _| [name, length].concat()),
    }
}

fn inner_name(draft: &mut Draft, random: &mut Random) {
    let Some(known) = some_name(draft, random) else { return };
    let inner = random.pick(&[&known[..], b"inner", b"1", b"0.95"]).to_vec();
    sign(draft, b")", random, |_| [b")", &inner[..]].concat())
}

fn bracketed_name(draft: &mut Draft, random: &mut Random) {
    name(draft, random, |name, _| [b"(", name, b")"].concat())
}

fn bracketed_whole(draft: &mut Draft, random: &mut Random) {
    line(draft, random, |line, _| {
        let end = line.iter().position(|&byte| byte == b';').unwrap_or(line.len());
        line.insert(end, b')');
        line.insert(0, b'(');
    })
}

/// A third in a pair: an unknown name, or brackets that stand around a pair fall away.
fn three(draft: &mut Draft, random: &mut Random) {
    if random.once_in(2) {
        return sign(draft, b")", random, |_| b",nobody)".to_vec());
    }
    line(draft, random, |line, _| {
        let Some(at) = line.windows(2).position(|two| two == b"((") else { return };
        let Some(end) = line[at..].iter().position(|&byte| byte == b')') else { return };
        line.remove(at + end);
        line.remove(at);
    })
}

fn empty_pair(draft: &mut Draft, random: &mut Random) {
    let pair = random.pick(&[&b"()"[..], b"(,)", b"(,a)", b"(a,)", b""]);
    name(draft, random, |_, _| pair.to_vec())
}

/// Brackets that open more often than they may: closed again or not, around names or around nothing.
fn deep(draft: &mut Draft, random: &mut Random) {
    let brackets = random.pick(&[127, 128, 129, 130, 256, 1_000]);
    line(draft, random, |line, random| match random.below(3) {
        0 => drop(line.splice(0..0, vec![b'('; brackets])),
        1 => *line = vec![b'('; brackets],
        _ => {
            let whole = line.strip_suffix(b";").unwrap_or(line).to_vec();
            *line = [&vec![b'('; brackets][..], &whole, &b",x)".repeat(brackets), b";"].concat();
        }
    })
}

fn comment(draft: &mut Draft, random: &mut Random) {
    let comment = random.pick(&[&b"[&R]"[..], b"[x]", b"#", b"//"]);
    line(draft, random, |line, random| put_in(line, comment, random))
}

fn quotes(draft: &mut Draft, random: &mut Random) {
    let quote = random.pick(&[&b"'"[..], b"\""]);
    name(draft, random, |name, _| [quote, name, quote].concat())
}

fn other_brackets(draft: &mut Draft, random: &mut Random) {
    let (open, close) = random.pick(&[(b'[', b']'), (b'{', b'}'), (b'<', b'>')]);
    sign(draft, b"()", random, |bracket| vec![if bracket == b'(' { open } else { close }])
}

// The line as a whole.

fn empty(draft: &mut Draft, random: &mut Random) {
    line(draft, random, |line, _| line.clear())
}

fn only_semicolon(draft: &mut Draft, random: &mut Random) {
    line(draft, random, |line, _| *line = b";".to_vec())
}

/// Its names, brackets, commas and semicolon, some of them left out, in any order.
fn any_order(draft: &mut Draft, random: &mut Random) {
    let Some(known) = some_name(draft, random) else { return };
    line(draft, random, |line, random| {
        let signs = [&b"("[..], b")", b",", b";", &known];
        *line = (0..random.below(9)).flat_map(|_| random.pick(&signs).to_vec()).collect();
    })
}

fn cut_off(draft: &mut Draft, random: &mut Random) {
    line(draft, random, |line, random| line.truncate(random.below(line.len().max(1))))
}

fn line_left_out(draft: &mut Draft, _: &mut Random) {
    draft.parts[TREE].pop();
}

fn line_twice(draft: &mut Draft, _: &mut Random) {
    let Some(line) = draft.parts[TREE].first().cloned() else { return };
    draft.parts[TREE].push(line);
}

fn line_in_two(draft: &mut Draft, random: &mut Random) {
    line(draft, random, |line, random| put_in(line, b"\n", random))
}

/// Two names of the tree change places, which a tree line may have.
fn turned_around(draft: &mut Draft, random: &mut Random) {
    line(draft, random, |line, random| {
        let places = names_of(line);
        let (Some(i), Some(j)) = (any(&places, random), any(&places, random)) else { return };
        let ((a, long_a), (b, long_b)) = (places[i.min(j)], places[i.max(j)]);
        if a < b {
            let (first, second) = (line[a..a + long_a].to_vec(), line[b..b + long_b].to_vec());
            line.splice(b..b + long_b, first);
            line.splice(a..a + long_a, second);
        }
    })
}
