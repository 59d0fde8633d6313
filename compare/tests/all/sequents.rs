//! The whole list of the rich table, and the spelling of each form.

use crate::common::{rows, table, L, RICH};
use compare::rows::{Row, ROW_BYTES};
use compare::sequents::{sequents, spell_out, Entry};
use compare::services::{check, print, spell_entry, write_sequent};
use compare::table::Table;

/// B stands for the base of events 4 and 5, C for that with the guard of 4, D of 5.
const WANTED: &str = "
    80 1 0 9; 84 1 1 1; 81 1 4 0; 82 3 9 0

    80 2 1 9; 84 2 1 6; 81 1 4 0; 81 4 1 3; 81 4 1 6; 82 2 9 0

    80 3 2 6; 84 2 4 6; 81 1 4 0; 81 1 9 0; 81 1 18 0; 82 5 2 6
    80 2 2 9; 84 2 1 6; 81 1 4 0; 81 1 9 0; 81 1 18 0; 81 4 2 3; 81 4 2 6; 82 2 9 0

    80 6 3 3; 84 1 3 3; 81 1 4 0; 81 4 3 2; 82 6 3 3
    80 6 3 6; 84 2 2 6; 81 1 4 0; 81 4 3 2; 82 6 3 6
    80 5 3 3; 84 1 3 3; 81 1 4 0; 81 4 3 2; 81 1 37 0; 81 1 40 0; 82 4 1 3
    80 5 3 6; 84 1 6 6; 81 1 4 0; 81 4 3 2; 81 1 37 0; 81 1 40 0; 82 4 1 6
    80 2 3 15; 84 3 2 6; 81 1 4 0; 81 4 3 2; 81 1 37 0; 81 1 40 0; 82 2 15 0

    80 6 4 6; 84 2 2 6; C; 81 4 4 2; 82 6 4 6
    80 6 4 4; 84 2 4 5; C; 82 6 4 4
    80 6 4 3; 84 1 3 3; C; 81 4 4 2; 82 6 4 3
    80 4 4 18; 84 2 4 6; C; 81 1 46 0; 82 1 18 0
    80 5 4 3; 84 1 3 3; C; 81 4 4 2; 81 1 43 0; 81 1 46 0; 81 1 47 0; 82 4 2 3
    80 5 4 6; 84 2 4 6; C; 81 4 4 2; 81 1 43 0; 81 1 46 0; 81 1 47 0; 82 4 2 6
    80 2 4 15; 84 3 2 6; C; 81 4 4 2; 81 1 43 0; 81 1 46 0; 81 1 47 0; 82 2 15 0

    80 3 5 2; 84 1 2 2; D; 82 5 5 2
    80 2 5 15; 84 3 2 6; D; 81 4 5 2; 81 4 5 3; 81 4 5 6; 82 2 15 0
    80 7 5 48; 84 1 2 2; D; 82 7 48 0
    80 8 5 48; 84 1 2 2; D; 81 4 5 2; 82 8 48 0
";

#[test]
fn rich_table_prints() {
    let wanted = WANTED
        .replace('C', "B; 81 1 21 0")
        .replace('D', "B; 81 1 22 0")
        .replace('B', "81 1 4 0; 81 1 9 0; 81 1 15 0");
    let printed = print(&table(RICH));
    let wanted = table(&wanted);
    for (place, row) in wanted.chunks(ROW_BYTES).enumerate() {
        let found = printed.get(place * ROW_BYTES..(place + 1) * ROW_BYTES);
        assert_eq!(found, Some(row), "row {}", place + 1);
    }
    assert_eq!(printed, wanted);
}

/// Spells an entry of the rich table: each place is operator and b.
fn spelled(form: i32, first: i32, second: i32) -> Vec<(i32, i32)> {
    let entry = Entry {
        form,
        first,
        second,
    };
    let symbols = spell_out(&Table::new(rows(RICH)), entry);
    symbols.iter().map(|one| (one.operator, one.b)).collect()
}

fn bare(operators: &[i32]) -> Vec<(i32, i32)> {
    operators.iter().map(|&operator| (operator, 0)).collect()
}

#[test]
fn each_form_is_spelled() {
    assert_eq!(spelled(1, 4, 0), [(32, 0), (20, 0), (2, 1), (1, 0)]);
    let after = [(20, 0), (3, 3), (6, 0), (21, 0), (3, 2), (3, 6)];
    assert_eq!(spelled(2, 15, 0), after);
    // Constants and literals stay as they are.
    let quotient = [(22, 0), (13, 0), (3, 6), (2, 1), (1, 5)];
    assert_eq!(spelled(2, 9, 0), quotient);
    assert_eq!(spelled(4, 2, 3), [(20, 0), (3, 3), (2, 3)]);
    assert_eq!(spelled(4, 5, 6), [(20, 0), (3, 6), (2, 6)]);
    assert_eq!(spelled(4, 2, 6), [(20, 0), (3, 6), (2, 4)]);
    assert_eq!(spelled(4, 1, 3), [(20, 0), (3, 3), (5, 0)]);
    assert_eq!(spelled(4, 4, 2), [(20, 0), (3, 2), (10, 0), (2, 2), (2, 5)]);
    assert_eq!(spelled(5, 5, 2), [(41, 2), (21, 0), (3, 2), (2, 2)]);
    assert_eq!(spelled(6, 4, 4), [(40, 4), (20, 0), (2, 4), (2, 5)]);
    assert_eq!(spelled(6, 4, 6), [(41, 6), (20, 0), (3, 6), (3, 2)]);
    assert_eq!(spelled(7, 48, 0), [(22, 0), (1, 0), (2, 2)]);
    assert_eq!(spelled(8, 48, 0), [(21, 0), (3, 2), (2, 2)]);
}

#[test]
fn well_definedness_of_a_quotient() {
    let not_zero = [(32, 0), (20, 0), (2, 1), (1, 0)];
    let wanted = [&bare(&[33, 33, 33, 30, 30])[..], &not_zero, &bare(&[30])].concat();
    assert_eq!(spelled(3, 9, 0), wanted);
}

/// WD of an axiom over integer constants 1 and 2: P is 1 = 0, Q is 1 ÷ 2 = 0.
fn well_definedness(operator: i32) -> Vec<(i32, i32)> {
    let text = format!(
        "10 1 1 0; 10 1 1 0; 20 2 1 0; 20 1 0 0; 20 20 1 2;
        20 2 1 0; 20 2 2 0; 20 13 4 5; 20 1 0 0; 20 20 6 7;
        20 {operator} 3 8; 30 9 0 0; 40 1 0 0; 40 2 0 0"
    );
    assert_eq!(check(&table(&text)), Ok(1));
    let read = Table::new(rows(&text));
    let goal = sequents(&read)[0].goal;
    let symbols = spell_out(&read, goal);
    symbols.iter().map(|one| (one.operator, one.b)).collect()
}

#[test]
fn well_definedness_keeps_the_order() {
    let p = [(20, 0), (2, 1), (1, 0)];
    let p_defined = bare(&[33, 30, 30]);
    let not_zero = [(32, 0), (20, 0), (2, 2), (1, 0)];
    let q_defined = [&bare(&[33, 33, 33, 30, 30])[..], &not_zero, &bare(&[30])].concat();
    let ordered = |operator| {
        let right = [&bare(&[operator])[..], &p, &q_defined].concat();
        [&bare(&[33])[..], &p_defined, &right].concat()
    };
    assert_eq!(well_definedness(33), ordered(35));
    assert_eq!(well_definedness(35), ordered(35));
    assert_eq!(well_definedness(34), ordered(34));
    let both = [&bare(&[33])[..], &p_defined, &q_defined].concat();
    assert_eq!(well_definedness(36), both);
}

#[test]
fn services_agree_with_print() {
    for text in [L, RICH] {
        let bytes = table(text);
        let read = Table::new(rows(text));
        let mut joined = Vec::new();
        for (n, sequent) in sequents(&read).iter().enumerate() {
            let mut out = vec![1; 40 * ROW_BYTES];
            let count = write_sequent(&bytes, n + 1, &mut out).expect("room");
            assert!(out[count * ROW_BYTES..].iter().all(|&byte| byte == 1));
            joined.extend_from_slice(&out[..count * ROW_BYTES]);
            for (j, entry) in sequent.entries().into_iter().enumerate() {
                let count = spell_entry(&bytes, n + 1, j + 1, &mut out).expect("room");
                assert_eq!(count, spell_out(&read, entry).len());
            }
        }
        assert_eq!(joined, print(&bytes));
    }
}

#[test]
fn actions_are_ordered_by_variable() {
    // Rows 51 and 52 stand in another order than the variables 1 to 3. Nodes 3, 8 and 13 divide 1 by 1.
    let text = "10 3 1 0; 10 3 1 0; 10 3 1 0; 20 1 1 0; 20 1 1 0; 20 13 1 2;
        20 1 1 0; 20 1 1 0; 20 14 4 5; 20 1 1 0; 20 20 6 7;
        20 1 1 0; 20 1 1 0; 20 13 9 10; 20 1 1 0; 20 20 11 12;
        40 1 0 0; 40 2 0 0; 51 2 2 3; 52 2 3 8; 52 2 1 13";
    let wanted = "80 1 2 13; 84 0 0 0; 82 3 13 0; 80 1 2 3; 84 0 0 0; 82 3 3 0; 80 1 2 8; 84 0 0 0; 82 3 8 0;
        80 3 2 1; 84 1 1 1; 82 5 2 1; 80 3 2 3; 84 1 3 3; 82 5 2 3";
    assert_eq!(print(&table(text)), table(wanted));
}

#[test]
fn later_guards_are_read_under_earlier_ones() {
    // Guards 1 ÷ 1 = 1 (5), ⊤ (6) and 1 mod 1 = 1 (11) of event 2, 1 mod 1 = 1 (16) of event 4.
    let text = "20 1 1 0; 20 1 1 0; 20 13 1 2; 20 1 1 0; 20 20 3 4; 20 30 0 0;
        20 1 1 0; 20 1 1 0; 20 14 7 8; 20 1 1 0; 20 20 9 10;
        20 1 1 0; 20 1 1 0; 20 14 12 13; 20 1 1 0; 20 20 14 15;
        40 1 0 0; 40 1 1 0; 40 2 0 0; 40 2 1 2;
        50 2 11 0; 50 4 16 0; 50 2 6 0; 50 2 5 0";
    let wanted =
        "80 1 2 11; 84 0 0 0; 82 3 11 0; 80 1 2 5; 84 0 0 0; 81 1 11 0; 81 1 6 0; 82 3 5 0;
        80 1 4 16; 84 0 0 0; 82 3 16 0; 80 4 4 11; 84 0 0 0; 81 1 16 0; 82 1 11 0;
        80 4 4 6; 84 0 0 0; 81 1 16 0; 82 1 6 0; 80 4 4 5; 84 0 0 0; 81 1 16 0; 82 1 5 0";
    assert_eq!(print(&table(text)), table(wanted));
}

#[test]
fn spelled_rows_are_rows_83() {
    let mut out = vec![0; 3 * ROW_BYTES];
    assert_eq!(spell_entry(&table(L), 2, 2, &mut out), Ok(3));
    let wanted = [(20, 0), (3, 1), (3, 2)].map(|(a, b)| Row::new(83, a, b, 0));
    assert_eq!(out, compare::rows::bytes_of(&wanted));
}
