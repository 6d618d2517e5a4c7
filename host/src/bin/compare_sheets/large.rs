//! Sheets at the edges of what a sheet may be, and one step beyond them.

use crate::draft::{cells, cost_line, costs, name_of, pair, tree_text, Draft, COSTS, NAMES, TREE};
use crate::random::Random;
use crate::reader::MOST_BYTES;

/// Each sheet with what it is.
pub fn large(random: &mut Random) -> Vec<(&'static str, Vec<u8>)> {
    let full = one_tip(65_493, random);
    vec![
        ("512 tips, unit costs", tips(512, 100, Vec::new(), random).text()),
        ("512 tips, random costs", tips(512, 60, costs(random), random).text()),
        ("512 tips, every change 999", tips(512, 40, dearest(), random).text()),
        ("512 tips with names of 32 letters, no columns", long_names(512, 32, 0, random).text()),
        ("512 tips, filled up to the last byte", filled(random)),
        ("513 tips", tips(513, 2, Vec::new(), random).text()),
        ("512 tips, the last name twice", last_name_twice(random)),
        ("a name of 33 letters", long_names(3, 33, 4, random).text()),
        ("5,000 columns of one tip", one_tip(5_000, random)),
        ("3,000 columns of seven tips", tips(7, 3_000, costs(random), random).text()),
        ("the largest sheet", full.clone()),
        ("one byte more, all in order", one_tip(65_494, random)),
        ("one byte more, behind the tree line", [&full[..], b"\n"].concat()),
        ("one byte more, at fault from line 1", vec![0; MOST_BYTES + 1]),
        ("the largest sheet without its last line end", [&full[..MOST_BYTES - 1], b" "].concat()),
        ("the largest number of line ends", vec![b'\n'; MOST_BYTES]),
        ("many bytes more", vec![b'A'; 2 * MOST_BYTES]),
        ("65,535 columns, which no sheet has room for", promised(65_535, &full)),
        ("65,536 columns, fewer written", promised(65_536, &full)),
        ("a comb of 129 names, to the left", comb(129, true, random)),
        ("a comb of 129 names, to the right", comb(129, false, random)),
        ("a comb of 130 names, to the left", comb(130, true, random)),
        ("a comb of 130 names, to the right", comb(130, false, random)),
        ("two combs, 128 deep together", combs(127, random)),
        ("two combs, 129 deep together", combs(128, random)),
        ("60,000 brackets", with_tree(vec![b'('; 60_000], random)),
        ("a name of 60,000 letters in the tree", with_tree([&vec![b'a'; 60_000][..], b";"].concat(), random)),
    ]
}

/// Names of one length, all different.
fn numbered(t: usize, length: usize, random: &mut Random) -> Vec<Vec<u8>> {
    (0..t).map(|i| [name_of(length - 3, random), format!("{i:03}").into_bytes()].concat()).collect()
}

fn tips(t: usize, c: usize, costs: Vec<Vec<u8>>, random: &mut Random) -> Draft {
    let names = numbered(t, 4, random);
    let tree = tree_text(&names, random);
    Draft::of(names, cells(t, c, random), costs, tree)
}

fn long_names(t: usize, length: usize, c: usize, random: &mut Random) -> Draft {
    let names = numbered(t, length, random);
    let tree = tree_text(&names, random);
    Draft::of(names, cells(t, c, random), Vec::new(), tree)
}

fn dearest() -> Vec<Vec<u8>> {
    (0..4).map(|x| cost_line((0..4).map(|y| if x == y { 0 } else { 999 }))).collect()
}

/// A sheet of one tip with so many columns: 43 bytes more than columns, where these have five digits.
fn one_tip(c: usize, random: &mut Random) -> Vec<u8> {
    Draft::of(vec![b"a".to_vec()], cells(1, c, random), Vec::new(), b"a;".to_vec()).text()
}

/// A sheet of 512 tips that is as long as may be: as many columns as fit, then longer names, a letter counting twice,
/// and a longer cost where one byte is left.
fn filled(random: &mut Random) -> Vec<u8> {
    let table = |dear| (0..4).map(|x| cost_line((0..4).map(|y| if x == y { 0 } else { dear }))).collect();
    let mut draft = tips(512, 100, table(1), random);
    let columns = 100 + (MOST_BYTES - draft.text().len()) / 512;
    let names = draft.parts[NAMES].clone();
    draft = Draft::of(names, cells(512, columns, random), table(1), draft.parts[TREE].concat());
    while MOST_BYTES - draft.text().len() >= 2 {
        let i = random.below(512);
        if draft.parts[NAMES][i].len() < 32 {
            let longer = [&b"x"[..], &draft.parts[NAMES][i]].concat();
            draft.rename(i, longer);
        }
    }
    if draft.text().len() < MOST_BYTES {
        draft.parts[COSTS][3] = b"1 1 10 0".to_vec();
    }
    assert_eq!(draft.text().len(), MOST_BYTES, "the sheet is not filled");
    draft.text()
}

fn last_name_twice(random: &mut Random) -> Vec<u8> {
    let mut draft = tips(512, 1, Vec::new(), random);
    draft.parts[NAMES][511] = draft.parts[NAMES][random.below(511)].clone();
    draft.text()
}

/// A sheet that says another number of columns than it has.
fn promised(c: usize, sheet: &[u8]) -> Vec<u8> {
    let mut lines: Vec<Vec<u8>> = sheet.split(|&byte| byte == b'\n').map(<[u8]>::to_vec).collect();
    lines[2] = format!("columns {c}").into_bytes();
    lines.join(&b'\n')
}

/// A comb: every pair but the innermost has a name and a pair.
fn comb_text(names: &[Vec<u8>], to_the_left: bool) -> (Vec<u8>, usize) {
    let mut tips = names.iter().map(|name| (name.clone(), 0));
    let first = tips.next().expect("a comb has a name");
    tips.fold(first, |comb, tip| if to_the_left { pair(&comb, &tip) } else { pair(&tip, &comb) })
}

fn comb(t: usize, to_the_left: bool, random: &mut Random) -> Vec<u8> {
    let names = numbered(t, 4, random);
    let (tree, _) = comb_text(&names, to_the_left);
    Draft::of(names, cells(t, 20, random), costs(random), [&tree[..], b";"].concat()).text()
}

/// A pair of two combs, both nested so deep.
fn combs(deep: usize, random: &mut Random) -> Vec<u8> {
    let names = numbered(2 * deep + 2, 4, random);
    let (tree, _) = pair(&comb_text(&names[..=deep], true), &comb_text(&names[deep + 1..], false));
    Draft::of(names.clone(), cells(names.len(), 12, random), Vec::new(), [&tree[..], b";"].concat()).text()
}

fn with_tree(text: Vec<u8>, random: &mut Random) -> Vec<u8> {
    let mut draft = tips(4, 2, Vec::new(), random);
    draft.parts[TREE] = vec![text];
    draft.text()
}
