//! What the reader says of the tree line and of what stands behind it, and how nodes are numbered.

use super::{changed, paper, refusal, refused, sound, text};
use crate::reader::{read, Node};

/// The paper's sheet with another tree line.
#[track_caller]
fn tree_refused(tree: &str) {
    refused(&changed(11, tree), 11, 11);
}

#[test]
fn unknown_repeated_and_missing_names_are_refused() {
    ["((a,b),x);", "((a,b),C);", "((a,b),cc);", "((ab,b),c);", "((a,b),cc.);"].into_iter().for_each(tree_refused);
    ["((a,b),a);", "((a,b),(c,c));", "((a,a),a);"].into_iter().for_each(tree_refused);
    ["(a,b);", "a;", "(c,b);"].into_iter().for_each(tree_refused);
}

#[test]
fn a_tree_is_a_name_or_a_pair_in_brackets_and_a_semicolon() {
    let wrong = [
        "",
        ";",
        "((a,b),c)",
        "((a,b),c",
        "((a,b),c);;",
        "((a,b),c); ",
        "((a,b),c);x",
        " ((a,b),c);",
        "((a, b),c);",
        "((a,b) ,c);",
        "((a:1,b),c);",
        "((a,b):1,c);",
        "((a,b)x,c);",
        "((a,b),c)x;",
        "((a,b),(c));",
        "(a);",
        "(((a,b),c));",
        "(a,b,c);",
        "((a,b)c);",
        "(a,b),c;",
        "((a,b),,c);",
        "((a,b),);",
        "(,(a,b));",
        "()",
        "();",
        "((a,b),c;",
        "(a,b),c);",
        "((a,b)),c);",
        "((a,b),c)];",
        "[(a,b),c];",
        "(('a',b),c);",
        "((a,b),c)[x];",
        "((a;b),c);",
        ")a,b(,c;",
        "((a,b),c):0;",
        "a,b,c;",
        "abc;",
        "((a,b);,c);",
    ];
    wrong.into_iter().for_each(tree_refused);
    for right in ["((a,b),c);", "(c,(a,b));", "((c,b),a);", "(a,(b,c));"] {
        sound(&changed(11, right));
    }
}

#[test]
fn one_name_is_a_tree() {
    sound(&["names 1", "a", "columns 1", "A", "costs 0", "tree 1", "a;"]);
    refused(&["names 1", "a", "columns 1", "A", "costs 0", "tree 1", "(a);"], 11, 7);
    refused(&["names 1", "a", "columns 1", "A", "costs 0", "tree 1", "a"], 11, 7);
}

/// A comb of so many names, with its sheet.
fn comb(t: usize, to_the_left: bool) -> Vec<u8> {
    let names: Vec<String> = (0..t).map(|i| format!("n{i}")).collect();
    let both = |comb: String, name: &String| match to_the_left {
        true => format!("({comb},{name})"),
        false => format!("({name},{comb})"),
    };
    let tree = names[1..].iter().fold(names[0].clone(), both) + ";";
    let count = format!("names {t}");
    let mut lines = vec![count.as_str()];
    lines.extend(names.iter().map(String::as_str));
    lines.push("columns 0");
    lines.extend(vec![""; t]);
    lines.extend(["costs 0", "tree 1", &tree]);
    text(&lines)
}

#[test]
fn brackets_nest_at_most_128_deep() {
    for to_the_left in [true, false] {
        assert_eq!(refusal(&comb(129, to_the_left)), None);
        assert_eq!(refusal(&comb(130, to_the_left)), Some((11, 265)));
    }
    tree_refused(&"(".repeat(60_000));
}

#[test]
fn something_behind_the_tree_line_is_refused_on_the_next_line_after_faults_of_the_tree() {
    for more in ["\n", " ", "x\n", "tree 1\n", "\r\n", "\u{0}", "\u{1a}"] {
        let sheet = [text(&paper()), more.into()].concat();
        assert_eq!(refusal(&sheet), Some((9, 12)), "{more:?}");
        let wrong = [text(&changed(11, "((a,b),x);")), more.into()].concat();
        assert_eq!(refusal(&wrong), Some((11, 11)), "{more:?}");
    }
}

#[test]
fn a_node_gets_its_number_when_its_text_ends() {
    let numbered = |tree: &str| read(&text(&changed(11, tree))).unwrap().nodes;
    use Node::{Inner, Tip};
    assert_eq!(numbered("((a,b),c);"), [Tip(0), Tip(1), Inner(0, 1), Tip(2), Inner(2, 3)]);
    assert_eq!(numbered("(c,(b,a));"), [Tip(2), Tip(1), Tip(0), Inner(1, 2), Inner(0, 3)]);
}
