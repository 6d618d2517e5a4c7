//! A reader of tree lines, byte by byte with a list of the open brackets.

use crate::fault::Reason;
use crate::reader::{is_of_a_name, Node};

const DEEPEST: usize = 128;

/// The nodes of a tree line, in the order of their numbers.
pub fn read(text: &[u8], names: &[&[u8]]) -> Result<Vec<Node>, Reason> {
    let mut tree = Reader { names, written: vec![false; names.len()], nodes: Vec::new(), open: Vec::new() };
    let mut rest = text;
    loop {
        rest = tree.begin(rest)?;
        rest = match tree.end(rest)? {
            Ended::Left(rest) => rest,
            Ended::Line(b"") => break,
            Ended::Line(_) => return Err(Reason::TreeAfterEnd),
        };
    }
    if tree.written.contains(&false) {
        return Err(Reason::TreeMissing);
    }
    Ok(tree.nodes)
}

/// What a finished tree was, with the text behind it: a left one, whose right one begins there, or the whole line's.
enum Ended<'a> {
    Left(&'a [u8]),
    Line(&'a [u8]),
}

struct Reader<'a> {
    names: &'a [&'a [u8]],
    /// By name: whether the text has had it.
    written: Vec<bool>,
    nodes: Vec<Node>,
    /// The open brackets, the innermost last, each with its left tree once there is one.
    open: Vec<Option<usize>>,
}

impl Reader<'_> {
    /// Reads the brackets that a tree begins with, and its first name. The last node is then a finished tree.
    fn begin<'t>(&mut self, text: &'t [u8]) -> Result<&'t [u8], Reason> {
        let brackets = text.iter().take_while(|&&byte| byte == b'(').count();
        self.open.extend(vec![None; brackets]);
        if self.open.len() > DEEPEST {
            return Err(Reason::TreeDeep);
        }
        let text = &text[brackets..];
        let length = text.iter().take_while(|&&byte| is_of_a_name(byte)).count();
        let (name, rest) = text.split_at(length);
        if name.is_empty() {
            return Err(if rest.is_empty() { Reason::TreeUnended } else { Reason::TreeMisplaced });
        }
        self.tip(name)?;
        Ok(rest)
    }

    /// A tip gets its number with its name, which no tip before has.
    fn tip(&mut self, name: &[u8]) -> Result<(), Reason> {
        let row = self.names.iter().position(|known| *known == name).ok_or(Reason::TreeUnknown)?;
        if self.written[row] {
            return Err(Reason::TreeTwice);
        }
        self.written[row] = true;
        self.nodes.push(Node::Tip(row));
        Ok(())
    }

    /// Closes brackets behind a finished tree, up to a `,` or to the `;`. A pair gets its number with its `)`.
    fn end<'t>(&mut self, mut text: &'t [u8]) -> Result<Ended<'t>, Reason> {
        loop {
            let finished = self.nodes.len() - 1;
            let (&byte, rest) = text.split_first().ok_or(Reason::TreeUnended)?;
            match (byte, self.open.pop()) {
                (b';', None) => return Ok(Ended::Line(rest)),
                (b',', Some(None)) => {
                    self.open.push(Some(finished));
                    return Ok(Ended::Left(rest));
                }
                (b')', Some(Some(left))) => self.nodes.push(Node::Inner(left, finished)),
                _ => return Err(Reason::TreeMisplaced),
            }
            text = rest;
        }
    }
}
