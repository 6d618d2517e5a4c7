//! Sheets as they are put together: part by part, line by line, with whatever text in the lines.

use crate::random::Random;
use crate::reader::is_of_a_name;

/// The parts of a draft, each a list of lines without their line ends.
pub const NAMES_COUNT: usize = 0;
pub const NAMES: usize = 1;
pub const COLUMNS_COUNT: usize = 2;
pub const CELLS: usize = 3;
pub const COSTS_COUNT: usize = 4;
pub const COSTS: usize = 5;
pub const TREE_COUNT: usize = 6;
pub const TREE: usize = 7;

/// The count lines.
pub const COUNTS: [usize; 4] = [NAMES_COUNT, COLUMNS_COUNT, COSTS_COUNT, TREE_COUNT];

/// All symbols of the code list.
pub const SYMBOLS: &[u8; 18] = b"ACGTURYSWKMBDHVN?-";

#[derive(Clone, Debug)]
pub struct Draft {
    pub parts: [Vec<Vec<u8>>; 8],
}

impl Draft {
    /// A sheet of these names, cell lines, cost lines and tree text, with the counts that they have.
    pub fn of(names: Vec<Vec<u8>>, cells: Vec<Vec<u8>>, costs: Vec<Vec<u8>>, tree: Vec<u8>) -> Draft {
        let count = |word: &str, number: usize| vec![format!("{word} {number}").into_bytes()];
        Draft {
            parts: [
                count("names", names.len()),
                names,
                count("columns", cells.first().map_or(0, Vec::len)),
                cells,
                count("costs", costs.len()),
                costs,
                count("tree", 1),
                vec![tree],
            ],
        }
    }

    /// The sheet's bytes: every line with its line end.
    pub fn text(&self) -> Vec<u8> {
        let mut lines: Vec<&[u8]> = self.parts.iter().flatten().map(Vec::as_slice).collect();
        lines.push(b"");
        lines.join(&b'\n')
    }

    /// Makes a count line fit the lines that there are.
    pub fn recount(&mut self) {
        let counted = Draft::of(
            self.parts[NAMES].clone(),
            self.parts[CELLS].clone(),
            self.parts[COSTS].clone(),
            self.parts[TREE].concat(),
        );
        for part in COUNTS {
            self.parts[part] = counted.parts[part].clone();
        }
    }

    /// Gives a name another text, in the list of names and in the tree line.
    pub fn rename(&mut self, i: usize, name: Vec<u8>) {
        let old = std::mem::replace(&mut self.parts[NAMES][i], name.clone());
        let line = &mut self.parts[TREE][0];
        if let Some((at, length)) = names_of(line).into_iter().find(|&(at, length)| line[at..at + length] == old) {
            line.splice(at..at + length, name);
        }
    }
}

/// Where the names of a tree line stand, and how long they are.
pub fn names_of(line: &[u8]) -> Vec<(usize, usize)> {
    let begins = |at: usize| is_of_a_name(line[at]) && !(at > 0 && is_of_a_name(line[at - 1]));
    let length = |at: usize| line[at..].iter().take_while(|&&byte| is_of_a_name(byte)).count();
    (0..line.len()).filter(|&at| begins(at)).map(|at| (at, length(at))).collect()
}

/// A random small sheet that keeps every rule: 1 to 12 tips, 0 to 8 columns, unit costs or any.
pub fn sound(random: &mut Random) -> Draft {
    let (t, c) = (1 + random.below(12), random.below(9));
    let names = names(t, random);
    let tree = tree_text(&names, random);
    let costs = if random.once_in(2) { Vec::new() } else { costs(random) };
    Draft::of(names, cells(t, c, random), costs, tree)
}

/// So many different names: words of the sheet, short ones that differ by case alone, and long ones.
pub fn names(t: usize, random: &mut Random) -> Vec<Vec<u8>> {
    let mut names: Vec<Vec<u8>> = Vec::new();
    while names.len() < t {
        let name = match random.below(8) {
            0 => random.pick(&["names", "columns", "costs", "tree", "0", "00", "N", "-", ".", "_"]).into(),
            1 => name_of(30 + random.below(3), random),
            2 => name_of(2 + random.below(12), random),
            _ => name_of(1, random),
        };
        if !names.contains(&name) {
            names.push(name);
        }
    }
    names
}

/// Any name of this length.
pub fn name_of(length: usize, random: &mut Random) -> Vec<u8> {
    let of_names = b"abcABCdefxyzDEFXYZ0123456789_.-ghijklmnopqrstuvwGHIJKLMNOPQRSTUVW";
    (0..length).map(|_| random.pick(of_names)).collect()
}

/// Cell lines, column by column of one manner: one base with exceptions, few plain bases, or any symbols.
pub fn cells(t: usize, c: usize, random: &mut Random) -> Vec<Vec<u8>> {
    let mut cells = vec![Vec::new(); t];
    for _ in 0..c {
        let common = [random.pick(b"ACGTU"), random.pick(b"ACGTU")];
        let manner = random.below(4);
        for line in &mut cells {
            line.push(match manner {
                0 if !random.once_in(5) => common[0],
                1 if !random.once_in(8) => random.pick(&common),
                2 => random.pick(b"ACGTACGTU"),
                _ => random.pick(SYMBOLS),
            });
        }
    }
    cells
}

/// Four cost lines: entries from a range, low ones for many ties; nothing off the diagonal need be alike.
pub fn costs(random: &mut Random) -> Vec<Vec<u8>> {
    let most = random.pick(&[1, 2, 5, 30, 999]);
    let entry = |x: usize, y: usize, random: &mut Random| match (x == y, random.once_in(8)) {
        (true, _) => 0,
        (false, true) => most,
        (false, false) => random.below(most + 1),
    };
    (0..4).map(|x| cost_line((0..4).map(|y| entry(x, y, random)))).collect()
}

/// Numbers parted by one space.
pub fn cost_line(entries: impl Iterator<Item = usize>) -> Vec<u8> {
    entries.map(|entry| entry.to_string()).collect::<Vec<_>>().join(" ").into_bytes()
}

/// A tree line with each name once, of any shape that nests no deeper than brackets may.
pub fn tree_text(names: &[Vec<u8>], random: &mut Random) -> Vec<u8> {
    loop {
        let (left, right) = random.tree(names.len());
        let mut texts: Vec<(Vec<u8>, usize)> = Vec::new();
        for (&a, &b) in left.iter().zip(&right) {
            texts.push(match a {
                65_535 => (names[usize::from(b)].clone(), 0),
                _ => pair(&texts[usize::from(a)], &texts[usize::from(b)]),
            });
        }
        let (tree, deep) = texts.pop().expect("a tree has a root");
        if deep <= 128 {
            return [&tree[..], b";"].concat();
        }
    }
}

/// Two trees in brackets, each with how deep its brackets nest.
pub fn pair((a, deep_a): &(Vec<u8>, usize), (b, deep_b): &(Vec<u8>, usize)) -> (Vec<u8>, usize) {
    ([&b"("[..], a, b",", b, b")"].concat(), 1 + deep_a.max(deep_b))
}
