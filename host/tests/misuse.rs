//! The safe functions on lists and numbers that no register would send: each call is refused by its number, and nothing
//! that it was lent has changed.

use fernijster::{column, count, hand_up, label, score, sets, Refusal, Start, Table, BARRED, LONGEST_LINE};

const NO_CHILD: u16 = 65_535;

/// Two tips, two states, one column, in a room that is larger than needed.
const SOUND: Table = Table {
    left: &[NO_CHILD, NO_CHILD, 0],
    right: &[0, 1, 1],
    states: 2,
    costs: &[0, 1, 1, 0],
    columns: 1,
    cells: &[0b01, 0b10],
    handed: &[],
};

const EMPTY: Table = Table { left: &[], right: &[], states: 0, costs: &[], columns: 0, cells: &[], handed: &[] };

/// What each of the five calls answers on a table, with ample room, from column 0 and no start. A refused call has
/// changed nothing.
fn answers(table: &Table) -> [Result<(), Refusal>; 5] {
    let mut rows = [7; 64];
    let mut words = [7; 64];
    let mut states = [7; 64];
    let mut bits = [7; 64];
    let scored = score(table, &mut words, &mut rows);
    let handed = hand_up(table, 0, &mut words, &mut rows);
    let labelled = label(table, 0, Start::Free, &mut states, &mut rows);
    let found = sets(table, 0, Start::Free, &mut bits, &mut rows);
    let counted = count(table, 0, &mut bits).map(|_| ());
    let answers = [scored, labelled, found, handed, counted];
    if answers.iter().all(Result::is_err) {
        assert_eq!((rows, words), ([7; 64], [7; 64]));
        assert_eq!((states, bits), ([7; 64], [7; 64]));
    }
    answers
}

#[test]
fn empty_lists_are_refused() {
    assert_eq!(answers(&EMPTY), [Err(Refusal::Size); 5]);
    assert_eq!(answers(&Table { right: &[], ..SOUND }), [Err(Refusal::Size); 5]);
    assert_eq!(answers(&Table { costs: &[], ..SOUND }), [Err(Refusal::Costs); 5]);
    assert_eq!(answers(&Table { cells: &[], ..SOUND }), [Err(Refusal::Cells); 5]);
}

#[test]
fn lists_of_the_wrong_length_are_refused() {
    let long = [0; 1_025];
    assert_eq!(answers(&Table { left: &long, right: &long, ..SOUND }), [Err(Refusal::Size); 5]);
    assert_eq!(answers(&Table { left: &long[..3], ..SOUND }), [Err(Refusal::Shape { node: 0 }); 5]);
    assert_eq!(answers(&Table { costs: &[0, 1, 1], ..SOUND }), [Err(Refusal::Costs); 5]);
    assert_eq!(answers(&Table { cells: &[1, 1, 1], ..SOUND }), [Err(Refusal::Cells); 5]);
    // Counting by sets takes no handed entries, and so does not look at them.
    let table = Table { handed: &[BARRED], ..SOUND };
    let rows = Err(Refusal::Rows);
    assert_eq!(answers(&table), [rows, rows, rows, rows, Ok(())]);
}

#[test]
fn huge_numbers_are_refused() {
    for states in [17, 1 << 32, 1 << 32 | 2, u64::MAX] {
        assert_eq!(answers(&Table { states, ..SOUND }), [Err(Refusal::Costs); 5], "{states} states");
    }
    for columns in [65_536, 1 << 32 | 1, 1 << 63, 1 << 63 | 1, u64::MAX] {
        assert_eq!(answers(&Table { columns, ..SOUND }), [Err(Refusal::Cells); 5], "{columns} columns");
    }
    let (mut states, mut bits, mut rows) = ([7; 3], [7; 3], [7; 6]);
    for number in [1, 2, 1 << 32, u64::MAX - 1, u64::MAX] {
        assert_eq!(label(&SOUND, number, Start::Free, &mut states, &mut rows), Err(Refusal::Which));
        assert_eq!(sets(&SOUND, number, Start::Free, &mut bits, &mut rows), Err(Refusal::Which));
        assert_eq!(count(&SOUND, number, &mut bits), Err(Refusal::Which));
    }
    for start in [4, 1 << 32, u64::MAX - 1, u64::MAX] {
        assert_eq!(label(&SOUND, 0, Start::Given(start), &mut states, &mut rows), Err(Refusal::Which));
        assert_eq!(sets(&SOUND, 0, Start::Given(start), &mut bits, &mut rows), Err(Refusal::Which));
    }
    assert_eq!((states, bits, rows), ([7; 3], [7; 3], [7; 6]));
}

#[test]
fn no_room_is_refused() {
    let (mut words, mut states, mut bits, mut rows) = ([7; 2], [7; 3], [7; 3], [7; 6]);
    let room = Err(Refusal::Room);
    assert_eq!(score(&SOUND, &mut [], &mut rows), room);
    assert_eq!(score(&SOUND, &mut words, &mut rows[..5]), room);
    assert_eq!(label(&SOUND, 0, Start::Free, &mut states[..2], &mut rows), room);
    assert_eq!(label(&SOUND, 0, Start::Free, &mut states, &mut []), room);
    assert_eq!(sets(&SOUND, 0, Start::Free, &mut bits[..2], &mut rows), room);
    assert_eq!(sets(&SOUND, 0, Start::Free, &mut bits, &mut rows[..5]), room);
    assert_eq!(hand_up(&SOUND, 0, &mut words[..1], &mut rows), room);
    assert_eq!(hand_up(&SOUND, 0, &mut words, &mut rows[..5]), room);
    assert_eq!(count(&SOUND, 0, &mut bits[..2]), Err(Refusal::Room));
    assert_eq!((words, states, bits, rows), ([7; 2], [7; 3], [7; 3], [7; 6]));
}

#[test]
fn a_done_call_writes_its_part_of_a_larger_room() {
    let (mut words, mut states, mut bits, mut rows) = ([7; 5], [7; 5], [7; 5], [7; 9]);
    assert_eq!(score(&SOUND, &mut words, &mut rows), Ok(()));
    assert_eq!(words, [1, 7, 7, 7, 7]);
    assert_eq!(rows, [0, BARRED, BARRED, 0, 1, 1, 7, 7, 7]);
    assert_eq!(hand_up(&SOUND, 0, &mut words, &mut rows), Ok(()));
    assert_eq!(words, [1, 1, 7, 7, 7]);
    assert_eq!(label(&SOUND, 0, Start::Given(1), &mut states, &mut rows), Ok(()));
    assert_eq!(states, [0, 1, 1, 7, 7]);
    assert_eq!(sets(&SOUND, 0, Start::Free, &mut bits, &mut rows), Ok(()));
    assert_eq!(bits, [0b01, 0b10, 0b11, 7, 7]);
    assert_eq!(count(&SOUND, 0, &mut bits), Ok(1));
    assert_eq!(bits, [0b01, 0b10, 0b11, 7, 7]);
}

#[test]
fn the_sheet_entry_takes_any_bytes() {
    let mut out = [7; LONGEST_LINE + 9];
    let long = vec![b'a'; 65_537];
    assert_eq!(column(&[], 0, &mut out), Err(Refusal::Sheet { line: 1 }));
    assert_eq!(column(&[], u64::MAX, &mut []), Err(Refusal::Sheet { line: 1 }));
    assert_eq!(column(&[0; 9], 0, &mut out), Err(Refusal::Sheet { line: 1 }));
    assert_eq!(column(&long, 0, &mut out), Err(Refusal::Sheet { line: 0 }));
    let sheet = b"names 1\na\ncolumns 1\nN\ncosts 0\ntree 1\na;\n";
    assert_eq!(column(sheet, 1, &mut out), Err(Refusal::Which));
    assert_eq!(column(sheet, u64::MAX, &mut []), Err(Refusal::Which));
    assert_eq!(column(sheet, 0, &mut []), Err(Refusal::Room));
    assert_eq!(out, [7; LONGEST_LINE + 9]);
    assert_eq!(column(sheet, 0, &mut out), Ok(9));
    assert_eq!(&out[..9], b"0 0 1 0 A");
    assert_eq!(out[9..], [7; LONGEST_LINE]);
}
