//! What the reader says of counts, names, cells, costs and lines.

use super::{changed, paper, printed, refusal, refused, sound, text};
use crate::reader::MOST_BYTES;
use crate::report::report;

#[test]
fn the_paper_s_sheet_prints_the_paper_s_report() {
    assert_eq!(report(crate::PAPER), "columns 2\n0 1 1 4 AAAGA\n1 1 1 5 CTTTT\ntotal 2\n");
}

#[test]
fn a_sheet_over_65_536_bytes_is_refused_on_line_0_before_anything_else() {
    let cells = "A".repeat(65_493);
    let mut sheet = text(&["names 1", "a", "columns 65493", &cells, "costs 0", "tree 1", "a;"]);
    assert_eq!(sheet.len(), MOST_BYTES);
    assert_eq!(refusal(&sheet), None);
    sheet.push(b'\n');
    assert_eq!(refusal(&sheet), Some((9, 0)));
    sheet[0] = b'!';
    assert_eq!(refusal(&sheet), Some((9, 0)));
    sheet.pop();
    assert_eq!(refusal(&sheet), Some((9, 1)));
    assert_eq!(report(&[0; MOST_BYTES + 1]), "refused 9 0\n");
}

#[test]
fn lines_are_judged_one_after_the_other() {
    let mut lines = changed(7, "AJ");
    lines[8] = "costs\t0";
    refused(&lines, 10, 7);
    lines[6] = "AT";
    refused(&lines, 9, 9);
    lines[8] = "costs 0";
    lines[10] = "((a,b),a);";
    refused(&lines, 11, 11);
    lines[3] = "a";
    refused(&lines, 9, 4);
}

#[test]
fn on_one_line_bytes_come_first_then_the_length_then_symbols() {
    refused(&changed(7, "J\t"), 9, 7);
    refused(&changed(7, "JAT"), 9, 7);
    refused(&changed(7, "J"), 9, 7);
    refused(&changed(7, "JT"), 10, 7);
    refused(&changed(11, "((a,b),x\t);"), 9, 11);
    refused(&changed(11, "((a,b),x);"), 11, 11);
}

#[test]
fn a_last_line_without_line_end_is_refused_whatever_it_holds() {
    let sheet = text(&paper());
    assert_eq!(refusal(&sheet[..sheet.len() - 1]), Some((9, 11)));
    assert_eq!(refusal(&sheet[..sheet.len() - 2]), Some((9, 11)));
    let wrong = text(&changed(11, "nonsense"));
    assert_eq!(refusal(&wrong[..wrong.len() - 1]), Some((9, 11)));
    let unlisted = text(&changed(6, "JJ"));
    assert_eq!(refusal(&unlisted[..26]), Some((9, 6)));
    assert_eq!(refusal(&unlisted[..27]), Some((10, 6)));
}

#[test]
fn a_file_that_ends_where_more_is_due_is_refused_on_the_next_line() {
    let lines = paper();
    for full in 0..lines.len() {
        refused(&lines[..full], 9, full as u64 + 1);
    }
    assert_eq!(refusal(b""), Some((9, 1)));
    assert_eq!(refusal(b"names 3"), Some((9, 1)));
    sound(&lines);
}

#[test]
fn a_count_line_is_the_word_one_space_and_the_digits() {
    let wrong = [
        "names",
        "names ",
        "names  3",
        " names 3",
        "names 3 ",
        "names3",
        "Names 3",
        "name 3",
        "names 3 3",
        "names +3",
        "names -3",
        "names 3.0",
        "names three",
        "names\t3",
        "columns 3",
        "3",
        "",
        "names 03",
        "names 003",
    ];
    wrong.into_iter().for_each(|line| refused(&changed(1, line), 9, 1));
    ["columns 02", "columns", "columns 2x", "colums 2"].into_iter().for_each(|line| refused(&changed(5, line), 9, 5));
    ["costs 00", "costs", "costs x", "cost 0"].into_iter().for_each(|line| refused(&changed(9, line), 9, 9));
    ["tree 01", "tree", "tree 1;", "trees 1"].into_iter().for_each(|line| refused(&changed(10, line), 9, 10));
}

#[test]
fn a_count_out_of_its_range_is_refused_on_its_own_line() {
    ["names 0", "names 513", "names 65536"].into_iter().for_each(|line| refused(&changed(1, line), 9, 1));
    refused(&changed(5, "columns 65536"), 9, 5);
    refused(&changed(5, "columns 65535"), 9, 6);
    ["costs 1", "costs 2", "costs 3", "costs 5", "costs 16"]
        .into_iter()
        .for_each(|line| refused(&changed(9, line), 9, 9));
    ["tree 0", "tree 2", "tree 10"].into_iter().for_each(|line| refused(&changed(10, line), 9, 10));
}

#[test]
fn a_count_of_many_digits_does_not_wrap() {
    for upper in [1 << 16, 1 << 32, 1u128 << 64, 1 << 100] {
        refused(&changed(1, &format!("names {}", upper + 3)), 9, 1);
        refused(&changed(5, &format!("columns {}", upper + 2)), 9, 5);
        refused(&changed(9, &format!("costs {upper}")), 9, 9);
        refused(&changed(10, &format!("tree {}", upper + 1)), 9, 10);
    }
    refused(&changed(1, &format!("names 3{}", "0".repeat(500))), 9, 1);
}

#[test]
fn no_count_is_judged_by_looking_ahead() {
    refused(&changed(1, "names 4"), 9, 5);
    refused(&changed(1, "names 2"), 9, 4);
    refused(&changed(1, "names 512"), 9, 5);
    refused(&changed(5, "columns 1"), 9, 6);
    let mut table = paper();
    table.splice(9..9, ["0 1 1 1", "1 0 1 1", "1 1 0 1", "1 1 1 0"]);
    refused(&table, 9, 10);
    table[8] = "costs 4";
    sound(&table);
    refused(&changed(9, "costs 4"), 9, 10);
}

#[test]
fn of_two_equal_names_the_later_carries_the_line() {
    refused(&changed(3, "a"), 9, 3);
    refused(&changed(2, "c"), 9, 4);
    refused(&["names 3", "x", "x", "x", "columns 0"], 9, 3);
}

#[test]
fn names_differ_by_case_and_may_be_any_words() {
    sound(&["names 2", "a", "A", "columns 1", "A", "C", "costs 0", "tree 1", "(A,a);"]);
    let words = ["names 4", "names", "tree", "0", "columns", "columns 0", "", "", "", ""];
    sound(&[&words[..], &["costs 0", "tree 1", "((names,tree),(0,columns));"]].concat());
}

#[test]
fn a_name_is_1_to_32_letters_digits_and_three_signs() {
    let long = "n".repeat(32);
    let tree = format!("((a,b),{long});");
    let mut lines = changed(4, &long);
    lines[10] = &tree;
    sound(&lines);
    let longer = "n".repeat(33);
    refused(&changed(4, &longer), 9, 4);
    for name in ["", "b c", " b", "b ", "b,c", "(b)", "b;", "b:1", "b'", "b/c", "b+c", "b\tc", "b\u{e9}"] {
        refused(&changed(3, name), 9, 3);
    }
    sound(&["names 1", "Az09_.-", "columns 0", "", "costs 0", "tree 1", "Az09_.-;"]);
}

#[test]
fn a_sheet_without_columns_has_an_empty_line_for_each_name() {
    let lines = ["names 2", "a", "b", "columns 0", "", "", "costs 0", "tree 1", "(a,b);"];
    sound(&lines);
    refused(&[&lines[..5], &lines[6..]].concat(), 9, 6);
    refused(&[&lines[..6], &[""], &lines[6..]].concat(), 9, 7);
    refused(&[&lines[..4], &["A"], &lines[5..]].concat(), 9, 5);
    refused(&[&lines[..4], &[" "], &lines[5..]].concat(), 9, 5);
    assert_eq!(printed(&lines), ["columns 0", "total 0"]);
}

#[test]
fn a_cell_line_of_wrong_length_is_refused_even_with_an_unlisted_byte() {
    ["", "A", "J", "ATA", "AJA", "AT ", " AT", "A T"].into_iter().for_each(|line| refused(&changed(7, line), 9, 7));
}

#[test]
fn a_space_in_a_cell_is_no_symbol_and_other_bytes_break_the_form() {
    refused(&changed(7, "A "), 10, 7);
    refused(&changed(7, " T"), 10, 7);
    ["A\t", "A\r", "A\u{7f}", "A\u{0}", "é"].into_iter().for_each(|line| refused(&changed(7, line), 9, 7));
    let mut high = text(&paper());
    high[27] = 200;
    assert_eq!(refusal(&high), Some((9, 7)));
}

#[test]
fn a_file_with_other_line_ends_fails_on_line_1() {
    let sheet = String::from_utf8(text(&paper())).unwrap();
    assert_eq!(refusal(sheet.replace('\n', "\r\n").as_bytes()), Some((9, 1)));
    assert_eq!(refusal(sheet.replace('\n', "\r").as_bytes()), Some((9, 1)));
    let mut lines = paper();
    lines[4] = "columns 2\r";
    refused(&lines, 9, 5);
}

#[test]
fn each_byte_is_one_of_the_18_symbols_or_refused() {
    for byte in 0..=255 {
        let sheet = [b"names 1\na\ncolumns 1\n", &[byte][..], b"\ncosts 0\ntree 1\na;\n"].concat();
        let expected = match byte {
            b'A' | b'C' | b'G' | b'T' | b'U' | b'N' | b'?' | b'-' => None,
            b'R' | b'Y' | b'S' | b'W' | b'K' | b'M' | b'B' | b'D' | b'H' | b'V' => None,
            32..=126 => Some((10, 4)),
            _ => Some((9, 4)),
        };
        assert_eq!(refusal(&sheet), expected, "byte {byte}");
    }
}

/// A sheet of two tips with a cost table; its cost lines are 8 to 11.
fn costed() -> Vec<&'static str> {
    let names = ["names 2", "a", "b", "columns 1", "A", "C", "costs 4"];
    [&names[..], &["0 1 2 3", "4 0 5 6", "7 8 0 9", "10 11 12 0"], &["tree 1", "(a,b);"]].concat()
}

#[test]
fn a_cost_line_has_four_numbers_parted_by_one_space() {
    sound(&costed());
    let wrong = [
        "4 0 5",
        "4 0 5 6 7",
        "4 0 5 6 ",
        " 4 0 5 6",
        "4  0 5 6",
        "",
        "4 0 5 06",
        "4 00 5 6",
        "4 0 5 1000",
        "4 1 5 6",
        "4 0 5 65536",
        "4 0 5 4294967296",
        "4 18446744073709551616 5 6",
        "4 0 5 -6",
        "4 0 5 x",
        "4,0,5,6",
        "4 0 5\t6",
        "4 0 5 6.0",
        "4 0 5 +6",
    ];
    for line in wrong {
        let mut lines = costed();
        lines[8] = line;
        refused(&lines, 9, 9);
    }
    let mut lines = costed();
    lines[10] = "999 999 999 0";
    sound(&lines);
    lines[10] = "999 999 1000 0";
    refused(&lines, 9, 11);
    refused(&[&costed()[..10], &costed()[11..]].concat(), 9, 11);
    refused(&[&costed()[..11], &costed()[10..]].concat(), 9, 12);
}

#[test]
fn the_cost_table_is_read_by_the_parent_s_state_first() {
    let cheap_from_a = ["0 1 9 9", "3 0 9 9", "9 9 0 9", "9 9 9 0"];
    let mut lines = costed();
    lines.splice(7..11, cheap_from_a);
    assert_eq!(printed(&lines), ["columns 1", "0 1 1 3 ACA", "total 1"]);
}
