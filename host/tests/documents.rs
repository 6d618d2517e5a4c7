//! The documents name what is there: every definition, theorem, function, edit and file that docs/PROMISES.md names,
//! every crate of docs/ARCHITECTURE.md, every place of docs/CHANGING.md.

use std::collections::{BTreeMap, BTreeSet};
use std::fs;
use std::path::{Path, PathBuf};

fn root() -> PathBuf {
    Path::new(env!("CARGO_MANIFEST_DIR")).join("..")
}

fn read(path: &str) -> String {
    fs::read_to_string(root().join(path)).unwrap_or_else(|e| panic!("{path}: {e}"))
}

/// All files below a folder of the repository, as paths from the repository's root, but for what `rt` makes in `out/`.
fn files_below(folder: &str) -> Vec<String> {
    let mut found = Vec::new();
    let mut open = vec![folder.to_string()];
    while let Some(at) = open.pop() {
        for entry in fs::read_dir(root().join(&at)).unwrap_or_else(|e| panic!("{at}: {e}")) {
            let entry = entry.expect("an entry of a folder");
            let path = format!("{at}/{}", entry.file_name().to_string_lossy());
            if entry.path().is_dir() {
                if entry.file_name() != "out" {
                    open.push(path);
                }
            } else {
                found.push(path);
            }
        }
    }
    found
}

/// The crates of crates.txt: the first word of a line with a colon.
fn crates() -> BTreeSet<String> {
    let lines = read("crates.txt");
    let listed = lines.lines().filter(|line| !line.starts_with('#'));
    listed.filter_map(|line| Some(line.split_once(':')?.0.split_whitespace().next()?.to_string())).collect()
}

const KEYWORDS: &[&str] = &[
    "pub", "pub(crate)", "abbrev", "unfoldable", "record", "data", "extern", "\"C\"", "fn", "const", "enum", "struct",
    "trait",
    "type",
];

/// What a line of a source declares, if it declares something: its first word, behind keywords or before a colon.
fn declared(line: &str) -> Option<&str> {
    let keywords = line.split_whitespace().take_while(|word| KEYWORDS.contains(word)).count();
    let mut words = line.split_whitespace().skip(keywords);
    let name = words.next()?.split(['(', ':', ';', '<', '{']).next()?;
    (keywords > 0 || words.next() == Some(":")).then_some(name)
}

/// The names that each source of the crates and of the Rust side declares.
fn names_by_file() -> BTreeMap<String, BTreeSet<String>> {
    let sources = files_below("crates").into_iter().chain(files_below("host/src")).chain(files_below("host/tests"));
    let sources = sources.filter(|path| [".antt", ".rt", ".rs"].iter().any(|ending| path.ends_with(ending)));
    let names = |path: &String| read(path).lines().filter_map(declared).map(str::to_string).collect();
    sources.map(|path| (path.clone(), names(&path))).collect()
}

/// The must-fail edits, each with its crate.
fn edits() -> BTreeSet<(String, String)> {
    let files = files_below("crates");
    let edits = files.iter().filter_map(|path| {
        let (owner, name) = path.strip_prefix("crates/")?.split_once("/must-fail/")?;
        Some((owner.to_string(), name.strip_suffix(".edit")?.to_string()))
    });
    edits.collect()
}

/// What stands between backticks in a line.
fn quoted(line: &str) -> Vec<&str> {
    line.split('`').skip(1).step_by(2).collect()
}

fn is_name(text: &str) -> bool {
    text.starts_with(|c: char| c.is_ascii_alphabetic())
        && text.chars().all(|c| c.is_ascii_alphanumeric() || c == '-' || c == '_')
}

/// The words of a line that are the names of sources or of folders of them.
fn places(line: &str) -> Vec<&str> {
    let apart = |c: char| c.is_whitespace() || matches!(c, '`' | '(' | ')' | ',' | ';' | '|');
    let words = line.split(apart).map(|word| word.trim_end_matches(['.', ':']));
    let source = |word: &&str| [".antt", ".rt", ".rs", "/specs", "/proofs", "/src"].iter().any(|e| word.ends_with(e));
    words.filter(source).collect()
}

/// The sources that a place names: a file by the end of its path, or all files of a folder.
fn at_place<'a>(place: &str, sources: &'a BTreeMap<String, BTreeSet<String>>) -> Vec<&'a String> {
    let (file, folder) = (format!("/{place}"), format!("/{place}/"));
    let here = |path: &&String| path.ends_with(&file) || path.as_str() == place || path.contains(&folder);
    sources.keys().filter(here).collect()
}

const DOCUMENTS: [&str; 3] = ["docs/PROMISES.md", "docs/ARCHITECTURE.md", "docs/CHANGING.md"];

#[test]
fn every_place_is_there() {
    let sources = names_by_file();
    let mut missing = Vec::new();
    for document in DOCUMENTS {
        for line in read(document).lines().filter(|line| !line.starts_with("    ")) {
            let gone = places(line).into_iter().filter(|place| at_place(place, &sources).is_empty());
            missing.extend(gone.map(|place| format!("{document}: {place}")));
        }
    }
    assert!(missing.is_empty(), "places that are not there: {missing:#?}");
}

/// Words of the toolchain, and a variable, that PROMISES.md quotes.
const OTHER_WORDS: [&str; 7] = ["pub", "use", "axioms", "count_ones", "trailing_zeros", "write_all", "W"];

#[test]
fn every_name_is_declared() {
    let (sources, crates) = (names_by_file(), crates());
    let edits: BTreeSet<String> = edits().into_iter().map(|(_, edit)| edit).collect();
    let text = read("docs/PROMISES.md");
    let names = text.lines().flat_map(quoted).filter(|text| is_name(text) && !OTHER_WORDS.contains(text));
    let declared = |name: &str| sources.values().any(|names| names.contains(name));
    let known = |name: &str| crates.contains(name) || edits.contains(name) || declared(name);
    let unknown: BTreeSet<_> = names.filter(|name| !known(name)).collect();
    assert!(unknown.is_empty(), "names that nothing declares: {unknown:#?}");
}

#[test]
fn every_theorem_stands_in_a_file_that_is_named_with_it() {
    let sources = names_by_file();
    let declared = |name: &str, proofs: bool| {
        let crates = sources.iter().filter(|(path, _)| path.starts_with("crates/"));
        crates.filter(|(path, _)| path.contains("/proofs/") == proofs).any(|(_, names)| names.contains(name))
    };
    let crates = crates();
    let is_theorem = |name: &&str| {
        is_name(name) && declared(name, true) && !declared(name, false) && !crates.contains(*name)
    };
    let mut elsewhere = Vec::new();
    for line in read("docs/PROMISES.md").lines() {
        let files: BTreeSet<_> = places(line).into_iter().flat_map(|place| at_place(place, &sources)).collect();
        let theorems = quoted(line).into_iter().filter(is_theorem);
        let here = |theorem: &str| files.is_empty() || files.iter().any(|file| sources[*file].contains(theorem));
        elsewhere.extend(theorems.filter(|theorem| !here(theorem)).map(|theorem| format!("{theorem}: {line}")));
    }
    assert!(elsewhere.is_empty(), "theorems that stand in none of the files named with them: {elsewhere:#?}");
}

#[test]
fn every_edit_is_named_with_its_crate() {
    let (crates, edits) = (crates(), edits());
    let text = read("docs/PROMISES.md");
    let section = text.split("## Edits that the prover must refuse").nth(1).expect("the section of the edits");
    let mut named = BTreeSet::new();
    let mut owner = String::new();
    for (i, piece) in section.split('`').enumerate() {
        if i % 2 == 0 {
            let before = piece.trim_end().strip_suffix(':').and_then(|words| words.rsplit(' ').next());
            owner = before.filter(|word| crates.contains(*word)).map_or(owner, str::to_string);
        } else if piece.contains('_') && is_name(piece) && !crates.contains(piece) && !CALLS.contains(&piece) {
            named.insert((owner.clone(), piece.to_string()));
        }
    }
    assert_eq!(named.difference(&edits).next(), None, "an edit is named that is not there");
    assert_eq!(edits.difference(&named).next(), None, "an edit is not named");
}

const CALLS: [&str; 3] = ["hand_up", "work_column", "fernijster_column"];

#[test]
fn every_crate_is_in_the_one_table() {
    let text = read("docs/ARCHITECTURE.md");
    let section = text.split("## The crates").nth(1).expect("the section of the crates");
    let table = section.split("## ").next().expect("its text");
    let cells = table.lines().filter(|line| line.starts_with('|')).filter_map(|line| line.split('|').nth(2));
    let named: BTreeSet<String> = cells.flat_map(quoted).map(str::to_string).collect();
    assert_eq!(named, crates());
}
