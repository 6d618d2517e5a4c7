//! The examples that the curators hold, and the rules of the report's line.

use super::{printed, text};
use crate::reader::{read, Sheet};
use crate::report::quiet;
use crate::rows::work;

/// A sheet of one column: a name and a symbol for each tip.
fn one_column(tips: &[(&str, &str)], costs: &[&str], tree: &str) -> Sheet {
    read(&one_column_text(tips, costs, tree)).expect("the sheet is sound")
}

fn one_column_text(tips: &[(&str, &str)], costs: &[&str], tree: &str) -> Vec<u8> {
    let (names, count) = (format!("names {}", tips.len()), format!("costs {}", costs.len()));
    let mut lines = vec![names.as_str()];
    lines.extend(tips.iter().map(|tip| tip.0));
    lines.push("columns 1");
    lines.extend(tips.iter().map(|tip| tip.1));
    lines.push(&count);
    lines.extend(costs);
    lines.extend(["tree 1", tree]);
    text(&lines)
}

#[test]
fn one_tip_of_two_bases() {
    let worked = work(&one_column(&[("a", "Y")], &[], "a;"), 0);
    assert_eq!((worked.score, worked.labels, worked.sets), (0, vec![1], vec![0b1010]));
}

#[test]
fn final_sets_are_not_the_preliminary_ones() {
    let tips = [("c", "C"), ("g", "G"), ("a", "A"), ("b", "A")];
    let worked = work(&one_column(&tips, &[], "(((c,g),a),b);"), 0);
    assert_eq!(worked.score, 2);
    assert_eq!((worked.labels[2], worked.sets[2]), (0, 0b0111));
}

#[test]
fn costs_need_not_be_symmetric() {
    let costs = ["0 1 9 9", "3 0 9 9", "9 9 0 9", "9 9 9 0"];
    let worked = work(&one_column(&[("a", "A"), ("b", "C")], &costs, "(a,b);"), 0);
    assert_eq!((worked.score, worked.sets[2]), (1, 0b0001));
}

#[test]
fn an_inner_node_may_take_a_state_that_no_tip_has() {
    let costs = ["0 9 1 9", "9 0 9 9", "1 1 0 9", "9 9 9 0"];
    let worked = work(&one_column(&[("a", "A"), ("b", "C")], &costs, "(a,b);"), 0);
    assert_eq!((worked.score, worked.sets[2], worked.labels[2]), (2, 0b0100, 2));
}

#[test]
fn transitions_and_transversions() {
    let costs = ["0 2 1 2", "2 0 2 1", "1 2 0 2", "2 1 2 0"];
    let tips = [("a", "A"), ("g", "G"), ("c", "C"), ("t", "T")];
    assert_eq!(work(&one_column(&tips, &costs, "((a,g),(c,t));"), 0).score, 4);
    assert_eq!(work(&one_column(&tips, &costs, "((a,c),(g,t));"), 0).score, 5);
}

#[test]
fn codes_for_several_bases_are_kept_as_sets() {
    let tips = [("r", "R"), ("r2", "R"), ("y", "Y"), ("y2", "Y")];
    assert_eq!(work(&one_column(&tips, &[], "((r,r2),(y,y2));"), 0).score, 1);
    assert_eq!(work(&one_column(&tips, &[], "((r,y),(r2,y2));"), 0).score, 2);
}

#[test]
fn nothing_is_printed_before_the_whole_sheet_is_read() {
    let lines = ["names 1", "a", "columns 2", "AC", "costs 0", "tree 1", "a;", ""];
    assert_eq!(printed(&lines[..7]), ["columns 2", "0 0 1 1 A", "1 0 1 1 C", "total 0"]);
    assert_eq!(printed(&lines), ["refused 9 8"]);
    assert_eq!(crate::report::report(&text(&lines)), "refused 9 8\n");
}

#[test]
fn a_u_is_a_t_and_printed_as_one() {
    let four = |symbols: [&str; 4]| {
        let tips: Vec<(&str, &str)> = ["a", "b", "c", "d"].into_iter().zip(symbols).collect();
        one_column_text(&tips, &[], "((a,b),(c,d));")
    };
    let report = |symbols| crate::report::report(&four(symbols));
    assert_eq!(report(["U", "T", "A", "A"]), "columns 1\n0 1 0 6 TTTAAAA\ntotal 1\n");
    assert_eq!(report(["U", "T", "A", "A"]), report(["T", "U", "A", "A"]));
}

#[test]
fn a_column_is_quiet_when_fewer_than_two_bases_stand_plainly_at_two_tips() {
    let mark = |symbols: &str| {
        let t = symbols.len();
        let tips: Vec<(String, String)> =
            symbols.chars().enumerate().map(|(i, s)| (format!("n{i}"), s.into())).collect();
        let tips: Vec<(&str, &str)> = tips.iter().map(|(name, symbol)| (name.as_str(), symbol.as_str())).collect();
        let tree = tips[1..t].iter().fold(tips[0].0.to_string(), |tree, tip| format!("({tree},{})", tip.0)) + ";";
        let marks = [&[][..], &["0 9 9 9", "1 0 9 9", "1 1 0 9", "0 0 0 0"]]
            .map(|costs| quiet(&one_column(&tips, costs, &tree), 0));
        assert_eq!(marks[0], marks[1], "the mark does not look at the costs");
        marks[0]
    };
    for loud in ["AACC", "UTAA", "UUGG", "AACCGGTT", "CAGACG", "AACCN?-RY"] {
        assert_eq!(mark(loud), 0, "{loud}");
    }
    for silent in ["A", "AAAA", "AACG", "AACT", "UTAC", "AACM", "AARR", "NNNN", "??--", "RRYY", "AANN", "ACGT"] {
        assert_eq!(mark(silent), 1, "{silent}");
    }
}

#[test]
fn the_one_state_count_is_over_all_nodes_by_final_sets() {
    let one = |tips: &[(&str, &str)], tree: &str| {
        let report = crate::report::report(&one_column_text(tips, &[], tree));
        report.lines().nth(1).unwrap().to_string()
    };
    assert_eq!(one(&[("a", "A")], "a;"), "0 0 1 1 A");
    assert_eq!(one(&[("a", "N")], "a;"), "0 0 1 0 A");
    assert_eq!(one(&[("a", "N"), ("b", "G")], "(a,b);"), "0 0 1 3 GGG");
    assert_eq!(one(&[("a", "A"), ("b", "G")], "(a,b);"), "0 1 1 2 AGA");
    assert_eq!(one(&[("c", "C"), ("g", "G"), ("a", "A"), ("b", "A")], "(((c,g),a),b);"), "0 2 1 6 CGAAAAA");
}
