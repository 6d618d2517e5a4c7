//! Damages, by kinds. Whether and how a damaged sheet is refused, the reader says.

// All kinds have one type, whether they make the sheet longer or not.
#[allow(clippy::ptr_arg)]
mod bytes;
mod counts;
mod names_and_cells;
mod table;
mod tree;

use crate::draft::Draft;
use crate::random::Random;

/// A damage to a part of a draft. Where there is nothing to damage, nothing changes.
pub type PartDamage = fn(&mut Draft, &mut Random);
/// A damage to the finished bytes.
pub type BytesDamage = fn(&mut Vec<u8>, &mut Random);

#[derive(Clone, Copy)]
pub enum Damage {
    Part(PartDamage),
    Bytes(BytesDamage),
}

/// A kind of damage, with what it is called.
pub type Kind = (&'static str, Damage);

/// All kinds in the order in which they are done: counts behind the lines that they count, and bytes last.
pub fn kinds() -> Vec<Kind> {
    let parts = [names_and_cells::KINDS, table::KINDS, tree::KINDS, counts::KINDS].concat();
    let parts = parts.into_iter().map(|(name, damage)| (name, Damage::Part(damage)));
    parts.chain(bytes::KINDS.iter().map(|&(name, damage)| (name, Damage::Bytes(damage)))).collect()
}

/// A sheet with one to three damages of any kinds, and the kinds.
pub fn damaged(draft: &Draft, kinds: &[Kind], random: &mut Random) -> (Vec<u8>, Vec<usize>) {
    loop {
        let mut drawn: Vec<usize> = (0..1 + random.below(3)).map(|_| random.below(kinds.len())).collect();
        drawn.sort();
        let (text, done) = do_all(draft.clone(), kinds, &drawn, random);
        if !done.is_empty() {
            return (text, done);
        }
    }
}

/// Does damages in their order: those to parts, then those to the bytes. Gives the kinds that changed something.
fn do_all(mut draft: Draft, kinds: &[Kind], drawn: &[usize], random: &mut Random) -> (Vec<u8>, Vec<usize>) {
    let mut done = Vec::new();
    let mut text = draft.text();
    for &kind in drawn {
        let before = text.clone();
        match kinds[kind].1 {
            Damage::Part(damage) => {
                damage(&mut draft, random);
                text = draft.text();
            }
            Damage::Bytes(damage) => damage(&mut text, random),
        }
        if text != before {
            done.push(kind);
        }
    }
    (text, done)
}

/// The place of any element of a list, if it has one.
fn any<T>(list: &[T], random: &mut Random) -> Option<usize> {
    match list.len() {
        0 => None,
        n => Some(random.below(n)),
    }
}

/// Changes any element of a list, if it has one.
fn change<T>(list: &mut [T], random: &mut Random, change: impl FnOnce(&mut T, &mut Random)) {
    let Some(i) = any(list, random) else { return };
    change(&mut list[i], random);
}

/// Puts bytes into a line, anywhere.
fn put_in(line: &mut Vec<u8>, bytes: &[u8], random: &mut Random) {
    let at = random.below(line.len() + 1);
    line.splice(at..at, bytes.iter().copied());
}
