//! Damages to the bytes of a sheet, wherever they fall.

use super::{any, BytesDamage};
use crate::random::Random;

pub const KINDS: &[(&str, BytesDamage)] = &[
    ("byte replaced by any", replaced),
    ("byte replaced by a printed one", replaced_printed),
    ("byte inserted, any", inserted),
    ("byte inserted, a printed one", inserted_printed),
    ("byte deleted", deleted),
    ("bytes deleted", many_deleted),
    ("neighbouring bytes swapped", swapped),
    ("tab", tab),
    ("byte 127", delete_sign),
    ("byte 128 or above", high),
    ("byte 0", zero),
    ("letter of another alphabet", other_alphabet),
    ("mark of an editor before line 1", editor_mark),
    ("line dropped", line_dropped),
    ("line doubled", line_doubled),
    ("lines swapped", lines_swapped),
    ("line moved", line_moved),
    ("empty line inserted", empty_line),
    ("line end deleted", line_end_deleted),
    ("line end inserted", line_end_inserted),
    ("space before a line end", space_at_end),
    ("space before a line", space_at_start),
    ("every line end CR LF", all_cr_lf),
    ("one line end CR LF", one_cr_lf),
    ("every line end CR", all_cr),
    ("last line end missing", last_line_end_missing),
    ("cut off anywhere", cut_anywhere),
    ("cut off behind a line", cut_behind_a_line),
    ("empty file", empty),
    ("empty line behind the tree", empty_line_behind),
    ("text behind the tree", text_behind),
    ("text without line end behind the tree", unended_behind),
    ("bad byte behind the tree", bad_byte_behind),
    ("whole sheet behind the tree", sheet_behind),
];

// Bytes.

fn put(text: &mut Vec<u8>, byte: u8, random: &mut Random) {
    text.insert(random.below(text.len() + 1), byte);
}

fn overwrite(text: &mut [u8], byte: u8, random: &mut Random) {
    let Some(at) = any(text, random) else { return };
    text[at] = byte;
}

fn printed(random: &mut Random) -> u8 {
    (32 + random.below(95)) as u8
}

fn replaced(text: &mut Vec<u8>, random: &mut Random) {
    let byte = random.below(256) as u8;
    overwrite(text, byte, random)
}

fn replaced_printed(text: &mut Vec<u8>, random: &mut Random) {
    let byte = printed(random);
    overwrite(text, byte, random)
}

fn inserted(text: &mut Vec<u8>, random: &mut Random) {
    let byte = random.below(256) as u8;
    put(text, byte, random)
}

fn inserted_printed(text: &mut Vec<u8>, random: &mut Random) {
    let byte = printed(random);
    put(text, byte, random)
}

fn deleted(text: &mut Vec<u8>, random: &mut Random) {
    let Some(at) = any(text, random) else { return };
    text.remove(at);
}

fn many_deleted(text: &mut Vec<u8>, random: &mut Random) {
    let Some(at) = any(text, random) else { return };
    let end = text.len().min(at + 2 + random.below(10));
    text.drain(at..end);
}

fn swapped(text: &mut Vec<u8>, random: &mut Random) {
    if text.len() < 2 {
        return;
    }
    let at = random.below(text.len() - 1);
    text.swap(at, at + 1);
}

fn tab(text: &mut Vec<u8>, random: &mut Random) {
    match random.once_in(2) {
        true => put(text, 9, random),
        false => overwrite(text, 9, random),
    }
}

fn delete_sign(text: &mut Vec<u8>, random: &mut Random) {
    match random.once_in(2) {
        true => put(text, 127, random),
        false => overwrite(text, 127, random),
    }
}

fn high(text: &mut Vec<u8>, random: &mut Random) {
    let byte = (128 + random.below(128)) as u8;
    match random.once_in(2) {
        true => put(text, byte, random),
        false => overwrite(text, byte, random),
    }
}

fn zero(text: &mut Vec<u8>, random: &mut Random) {
    match random.once_in(2) {
        true => put(text, 0, random),
        false => overwrite(text, 0, random),
    }
}

fn other_alphabet(text: &mut Vec<u8>, random: &mut Random) {
    let letter = random.pick(&["é", "ü", "А", "–", "\u{a0}"]);
    let at = random.below(text.len() + 1);
    text.splice(at..at, letter.bytes());
}

fn editor_mark(text: &mut Vec<u8>, _: &mut Random) {
    text.splice(0..0, [0xef, 0xbb, 0xbf]);
}

// Lines, each with its line end.

fn lines(text: &[u8]) -> Vec<Vec<u8>> {
    text.split_inclusive(|&byte| byte == b'\n').map(<[u8]>::to_vec).collect()
}

/// Changes the list of lines, unless it is empty.
fn edit(text: &mut Vec<u8>, random: &mut Random, edit: impl FnOnce(&mut Vec<Vec<u8>>, usize, &mut Random)) {
    let mut lines = lines(text);
    let Some(i) = any(&lines, random) else { return };
    edit(&mut lines, i, random);
    *text = lines.concat();
}

fn line_dropped(text: &mut Vec<u8>, random: &mut Random) {
    edit(text, random, |lines, i, _| drop(lines.remove(i)))
}

fn line_doubled(text: &mut Vec<u8>, random: &mut Random) {
    edit(text, random, |lines, i, _| lines.insert(i, lines[i].clone()))
}

fn lines_swapped(text: &mut Vec<u8>, random: &mut Random) {
    edit(text, random, |lines, i, random| {
        let other = random.below(lines.len());
        lines.swap(i, other);
    })
}

fn line_moved(text: &mut Vec<u8>, random: &mut Random) {
    edit(text, random, |lines, i, random| {
        let line = lines.remove(i);
        lines.insert(random.below(lines.len() + 1), line);
    })
}

fn empty_line(text: &mut Vec<u8>, random: &mut Random) {
    edit(text, random, |lines, i, _| lines.insert(i, b"\n".to_vec()))
}

// Line ends.

fn line_end_deleted(text: &mut Vec<u8>, random: &mut Random) {
    edit(text, random, |lines, i, _| lines[i].retain(|&byte| byte != b'\n'))
}

fn line_end_inserted(text: &mut Vec<u8>, random: &mut Random) {
    put(text, b'\n', random)
}

fn before_line_end(line: &mut Vec<u8>, byte: u8) {
    line.insert(line.len() - 1, byte);
}

fn space_at_end(text: &mut Vec<u8>, random: &mut Random) {
    edit(text, random, |lines, i, _| before_line_end(&mut lines[i], b' '))
}

fn space_at_start(text: &mut Vec<u8>, random: &mut Random) {
    edit(text, random, |lines, i, _| lines[i].insert(0, b' '))
}

fn all_cr_lf(text: &mut Vec<u8>, _: &mut Random) {
    *text = text.iter().flat_map(|&byte| if byte == b'\n' { vec![13, 10] } else { vec![byte] }).collect();
}

fn one_cr_lf(text: &mut Vec<u8>, random: &mut Random) {
    edit(text, random, |lines, i, _| before_line_end(&mut lines[i], 13))
}

fn all_cr(text: &mut Vec<u8>, _: &mut Random) {
    text.iter_mut().filter(|byte| **byte == b'\n').for_each(|byte| *byte = 13);
}

// Ends of the file.

fn last_line_end_missing(text: &mut Vec<u8>, _: &mut Random) {
    text.pop_if(|byte| *byte == b'\n');
}

fn cut_anywhere(text: &mut Vec<u8>, random: &mut Random) {
    text.truncate(random.below(text.len() + 1));
}

fn cut_behind_a_line(text: &mut Vec<u8>, random: &mut Random) {
    edit(text, random, |lines, i, _| lines.truncate(i))
}

fn empty(text: &mut Vec<u8>, _: &mut Random) {
    text.clear();
}

fn empty_line_behind(text: &mut Vec<u8>, _: &mut Random) {
    text.push(b'\n');
}

fn text_behind(text: &mut Vec<u8>, random: &mut Random) {
    text.extend(random.pick(&[&b"tree 1\n"[..], b"end\n", b" \n", b"(a,b);\n", b"# a note\n\n"]));
}

fn unended_behind(text: &mut Vec<u8>, random: &mut Random) {
    text.extend(random.pick(&[&b" "[..], b";", b"tree 1", b"x"]));
}

fn bad_byte_behind(text: &mut Vec<u8>, random: &mut Random) {
    text.extend(random.pick(&[&b"\x1a"[..], b"\0", b"\r\n", b"\xff\n", b"\t\n"]));
}

fn sheet_behind(text: &mut Vec<u8>, _: &mut Random) {
    text.extend_from_within(..);
}
