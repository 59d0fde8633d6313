//! Request 6 sentence by sentence: presses and previews whose replies are counted by hand.

use crate::common::machine::{EVENTS, FORMULAS, IDENTIFIERS};
use crate::common::prefix::{laid_out, Named};
use crate::common::{refusal, rows, table, L};
use compare::checks::{Refusal, FRAME, MISSING, USE};
use compare::press::{press, preview, Record};
use compare::replay::{NOT_A_RUN, OUTSIDE, UNDEFINED};
use compare::rows::{bytes_of, ROW_BYTES};
use std::mem::{align_of, offset_of, size_of};

/// Identifiers 10 b, an abstract boolean variable, and 11 y, a parameter of mix.
const MORE_IDENTIFIERS: [[i32; 3]; 2] = [[2, 2, 0], [5, 1, 8]];

/// Event 8.
const MIX_EVENT: [i32; 3] = [2, 3, 0];

const MORE_FORMULAS: [Named; 10] = [
    (50, 2, 0, "= / 1 0 1"), // never read
    (51, 1, 10, "FALSE"),    //
    (51, 2, 5, "/ 1 0"),     // never read
    (51, 8, 9, "+ i3 i11"),  // mix: w := v + y
    (52, 8, 3, "< i3 i3'"),  // mix: v :| v < v'
    (60, 3, 10, "true"),
    (60, 4, 10, "true"),
    (60, 7, 10, "true"),
    (52, 4, 9, "< i9 i9'"), // add: w :| w < w'
    (70, 0, 0, "/ 1 0"),    // never read
];

/// c = 5, p = 70, v = 2, s = FALSE, a = 40, k = TRUE, the abstract parameter, q = TRUE, w = 7, b = TRUE, y = 80.
const VALUES: [i64; 11] = [5, 70, 2, 0, 40, 1, 0, 1, 7, 1, 80];

const ADD: &str = "90 4 0 0; 91 2 3 0; 91 9 8 0";
const FLIP: &str = "90 5 0 0; 91 4 1 0";
const SET: &str = "90 6 0 0; 91 8 1 0; 91 9 6 0";
const IDLE: &str = "90 7 0 0";
const MIX: &str = "90 8 0 0; 91 3 3 0; 91 11 10 0";

fn identifiers() -> Vec<[i32; 3]> {
    [&IDENTIFIERS[..], &MORE_IDENTIFIERS].concat()
}

/// The machine with more formulas before its own.
fn machine_with(more: &[Named]) -> Vec<u8> {
    let mut formulas = more.to_vec();
    formulas.extend(FORMULAS);
    formulas.extend(MORE_FORMULAS);
    let events = [&EVENTS[..], &[MIX_EVENT]].concat();
    laid_out(&identifiers(), &events, &formulas)
}

fn machine() -> Vec<u8> {
    machine_with(&[])
}

/// The records of these values.
fn records(identifiers: &[[i32; 3]], values: &[i64]) -> Vec<Record> {
    let records = identifiers.iter().zip(values);
    let record = |(one, &value): (&[i32; 3], &i64)| Record {
        value,
        type_number: one[1] as u64,
    };
    records.map(record).collect()
}

fn state() -> Vec<Record> {
    records(&identifiers(), &VALUES)
}

/// The state with other values of these identifiers.
fn with(changes: &[(usize, i64)]) -> Vec<Record> {
    let mut list = state();
    for &(number, value) in changes {
        list[number - 1].value = value;
    }
    list
}

/// What a second list holds before, of any length.
fn filler(length: usize) -> Vec<Record> {
    let record = |place: usize| Record {
        value: -1000 - place as i64,
        type_number: u64::MAX - place as u64,
    };
    (0..length).map(record).collect()
}

/// Presses and previews; neither changes more than it may, and both answer alike. Gives the list that is made.
fn both(table: &[u8], step: &[u8], list: &[Record]) -> Result<Vec<Record>, Refusal> {
    let mut pressed = list.to_vec();
    let answer = press(table, step, &mut pressed);
    let (first, mut second) = (list.to_vec(), filler(list.len()));
    assert_eq!(preview(table, step, &first, &mut second), answer);
    match answer {
        Ok(()) => assert_eq!(second, pressed),
        Err(_) => {
            assert_eq!(pressed, list);
            assert_eq!(second, filler(list.len()));
        }
    }
    answer.map(|()| pressed)
}

/// The answer to this step's text, on the machine above.
fn answer(step: &str, list: &[Record]) -> Result<Vec<Record>, Refusal> {
    both(&machine(), &table(step), list)
}

fn refused(number: i32) -> Result<Vec<Record>, Refusal> {
    Err(refusal(number, 0))
}

fn not_allowed() -> Result<Vec<Record>, Refusal> {
    refused(NOT_A_RUN)
}

#[test]
fn records_are_laid_out_as_the_header_has_them() {
    assert_eq!((size_of::<Record>(), align_of::<Record>()), (16, 8));
    assert_eq!(offset_of!(Record, value), 0);
    assert_eq!(offset_of!(Record, type_number), 8);
}

#[test]
fn pressing_updates_the_variables_records_alone() {
    assert_eq!(answer(ADD, &state()), Ok(with(&[(3, 5), (9, 8)])));
    assert_eq!(answer(FLIP, &state()), Ok(with(&[(4, 1)])));
    assert_eq!(answer(SET, &state()), Ok(with(&[(4, 1), (9, 6)])));
    assert_eq!(answer(IDLE, &state()), Ok(state()));
    assert_eq!(answer(MIX, &state()), Ok(with(&[(3, 3), (9, 12)])));
}

#[test]
fn presses_follow_each_other_on_one_list() {
    let mut list = state();
    for (step, wanted) in [
        (FLIP, with(&[(4, 1)])),
        (ADD, with(&[(3, 5), (4, 1), (9, 8)])),
        ("90 5 0 0; 91 4 0 0", with(&[(3, 5), (9, 8)])),
        ("90 6 0 0; 91 8 0 0; 91 9 5 0", with(&[(3, 5), (9, 5)])),
    ] {
        assert_eq!(press(&machine(), &table(step), &mut list), Ok(()));
        assert_eq!(list, wanted);
    }
    // c is 5, and v has come to it.
    let again = press(&machine(), &table(ADD), &mut list);
    assert_eq!(again, Err(refusal(NOT_A_RUN, 0)));
    assert_eq!(list, with(&[(3, 5), (9, 5)]));
}

/// The record of p holds 70, which would be too much, and then a value that no sum can have.
#[test]
fn a_parameter_has_the_steps_value_and_its_record_stays() {
    let huge = with(&[(2, i64::MAX), (11, i64::MIN)]);
    let wanted = |changes: &[(usize, i64)]| {
        let mut list = huge.clone();
        for &(number, value) in changes {
            list[number - 1].value = value;
        }
        Ok(list)
    };
    assert_eq!(answer(ADD, &huge), wanted(&[(3, 5), (9, 8)]));
    assert_eq!(answer(MIX, &huge), wanted(&[(3, 3), (9, 12)]));
}

#[test]
fn a_preview_writes_the_whole_second_list_and_keeps_the_first() {
    let (first, mut second) = (state(), filler(11));
    let answer = preview(&machine(), &table(ADD), &first, &mut second);
    assert_eq!(answer, Ok(()));
    assert_eq!(second, with(&[(3, 5), (9, 8)]));
    assert_eq!(first, state());
}

/// Its records don't count: they may be anything, also what would be refused in the first list.
#[test]
fn of_the_second_list_only_the_length_counts() {
    let mut lists = vec![filler(11), state(), vec![Record::default(); 11]];
    lists.push(with(&[(4, 2), (6, -1)]));
    for mut second in lists {
        let answer = preview(&machine(), &table(SET), &state(), &mut second);
        assert_eq!((answer, second), (Ok(()), with(&[(4, 1), (9, 6)])));
    }
    for length in [0, 1, 10, 12, 64, 65, 66, 200] {
        let mut second = filler(length);
        let answer = preview(&machine(), &table(SET), &state(), &mut second);
        assert_eq!(answer, Err(refusal(NOT_A_RUN, 0)), "{length}");
        assert_eq!(second, filler(length));
    }
}

/// Both lists have one length that isn't right.
#[test]
fn a_list_of_another_length_is_refused() {
    for length in [0, 1, 10, 12, 13, 64, 65, 66, 200] {
        let mut list = state();
        list.resize(length, list[0]);
        assert_eq!(answer(IDLE, &list), not_allowed(), "{length}");
        let mut second = filler(11);
        let short = preview(&machine(), &table(IDLE), &list, &mut second);
        assert_eq!(short, Err(refusal(NOT_A_RUN, 0)), "{length}");
        assert_eq!(second, filler(11));
    }
}

/// Those of constants, parameters and abstract variables too, whatever the event.
#[test]
fn every_record_has_its_identifiers_type() {
    for (place, one) in identifiers().iter().enumerate() {
        let right = one[1] as u64;
        for type_number in [0, 1, 2, 3, 257, (1 << 32) + right, 1 << 63, u64::MAX] {
            let mut list = with(&[(place + 1, 1)]);
            list[place].type_number = type_number;
            let wanted = match type_number == right {
                true => Ok(list.clone()),
                false => not_allowed(),
            };
            assert_eq!(answer(IDLE, &list), wanted, "{place} {type_number}");
        }
    }
}

#[test]
fn every_boolean_record_holds_0_or_1() {
    for (place, one) in identifiers().iter().enumerate() {
        for value in [
            -1,
            0,
            1,
            2,
            3,
            256,
            1 << 32,
            (1 << 32) + 1,
            i64::MIN,
            i64::MAX,
        ] {
            let list = with(&[(place + 1, value)]);
            // Other constants make an axiom false.
            let fits = match place + 1 {
                1 => value > 0,
                6 => value == 1,
                _ => one[1] == 1 || (0..=1).contains(&value),
            };
            let wanted = match fits {
                true => Ok(list.clone()),
                false => not_allowed(),
            };
            assert_eq!(answer(IDLE, &list), wanted, "{place} {value}");
        }
    }
}

#[test]
fn only_concrete_events_but_the_initialisation_are_pressed() {
    for event in [i32::MIN, -4, 0, 1, 2, 3, 9, i32::MAX] {
        let step = format!("90 {event} 0 0");
        assert_eq!(answer(&step, &state()), not_allowed(), "{event}");
    }
    // With the rows that they would have.
    assert_eq!(answer("90 3 0 0; 91 9 7 0", &state()), not_allowed());
    let logged = "90 3 0 0; 91 1 5 0; 91 3 0 0; 91 4 0 0; 91 6 1 0; 91 9 7 0";
    assert_eq!(answer(logged, &state()), not_allowed());
    assert_eq!(answer("90 2 0 0; 91 7 0 0", &state()), not_allowed());
}

#[test]
fn a_step_has_a_row_90_with_nothing_in_unused_columns() {
    for step in [
        "90 7 1 0",
        "90 7 0 1",
        "90 7 -1 0",
        "90 7 0 -1",
        "91 7 0 0",
        "89 7 0 0",
        "40 7 0 0",
    ] {
        assert_eq!(answer(step, &state()), not_allowed(), "{step}");
    }
}

/// No row for a 51's variable, one that isn't assigned, a constant, another event's parameter or an abstract identifier.
#[test]
fn rows_91_are_those_of_parameters_and_52_actions_alone() {
    for step in [
        "90 4 0 0; 91 2 3 0; 91 3 5 0; 91 9 8 0",
        "90 4 0 0; 91 2 3 0; 91 4 0 0; 91 9 8 0",
        "90 5 0 0; 91 3 2 0; 91 4 1 0",
        "90 5 0 0; 91 4 1 0; 91 9 7 0",
        "90 4 0 0; 91 1 5 0; 91 2 3 0; 91 9 8 0",
        "90 5 0 0; 91 2 3 0; 91 4 1 0",
        "90 4 0 0; 91 2 3 0; 91 5 40 0; 91 9 8 0",
        "90 4 0 0; 91 2 3 0; 91 7 0 0; 91 9 8 0",
        "90 7 0 0; 91 3 2 0",
    ] {
        assert_eq!(answer(step, &state()), not_allowed(), "{step}");
    }
}

#[test]
fn rows_91_come_in_one_order_of_identifiers_and_once() {
    // A 52's variable before a parameter whose number is higher, and the reverse.
    assert!(answer(MIX, &state()).is_ok());
    assert!(answer(SET, &state()).is_ok());
    for step in [
        "90 8 0 0; 91 11 10 0; 91 3 3 0",
        "90 6 0 0; 91 9 6 0; 91 8 1 0",
        "90 6 0 0; 91 8 1 0; 91 8 1 0; 91 9 6 0",
        "90 6 0 0; 91 8 1 0; 91 9 6 0; 91 9 6 0",
        "90 6 0 0; 91 8 1 0",
        "90 6 0 0; 91 9 6 0",
        "90 6 0 0",
        "90 6 0 0; 91 8 1 1; 91 9 6 0",
        "90 6 0 0; 91 8 1 0; 91 9 6 -1",
        "90 6 0 0; 90 8 1 0; 91 9 6 0",
        "90 6 0 0; 91 0 1 0; 91 9 6 0",
        "90 6 0 0; 91 12 1 0; 91 9 6 0",
        "90 6 0 0; 91 -8 1 0; 91 9 6 0",
    ] {
        assert_eq!(answer(step, &state()), not_allowed(), "{step}");
    }
}

#[test]
fn nothing_follows_the_steps_last_row() {
    for more in [IDLE, "91 9 8 0", "91 10 1 0", "92 0 0 0", ADD] {
        let step = format!("{ADD}; {more}");
        assert_eq!(answer(&step, &state()), not_allowed(), "{more}");
    }
    for more in 1..ROW_BYTES {
        let mut step = table(ADD);
        step.extend(vec![b' '; more]);
        assert_eq!(both(&machine(), &step, &state()), not_allowed(), "{more}");
    }
    assert_eq!(answer("90 7 0 0; 90 7 0 0", &state()), not_allowed());
}

#[test]
fn a_torn_or_empty_step_is_refused() {
    let step = table(ADD);
    for length in 0..step.len() {
        let answer = both(&machine(), &step[..length], &state());
        assert_eq!(answer, not_allowed(), "{length}");
    }
    assert!(both(&machine(), &step, &state()).is_ok());
}

#[test]
fn values_of_rows_are_in_the_number_form_and_booleans_are_0_or_1() {
    let bad: [&[u8; ROW_BYTES]; 6] = [
        b"  91          2 2147483648          0\n",
        b"  91          2-2147483649          0\n",
        b"  91          2         03          0\n",
        b"  91          2         +3          0\n",
        b"  91          2         -0          0\n",
        b"  91          2          3          0 ",
    ];
    for bytes in bad {
        let mut step = table(ADD);
        step[ROW_BYTES..2 * ROW_BYTES].copy_from_slice(bytes);
        let text = bytes.escape_ascii();
        assert_eq!(both(&machine(), &step, &state()), not_allowed(), "{text}");
    }
    for value in [i32::MIN, -1, 2, 3, 256, i32::MAX] {
        let set = format!("90 6 0 0; 91 8 {value} 0; 91 9 6 0");
        assert_eq!(answer(&set, &state()), not_allowed(), "{value}");
        let flip = format!("90 5 0 0; 91 4 {value} 0");
        assert_eq!(answer(&flip, &state()), not_allowed(), "{value}");
    }
}

/// An axiom is undefined, then one is outside: lists and rows are refused before, whatever is wrong with them.
#[test]
fn lists_and_rows_are_judged_before_any_term() {
    let huge = "< 0 * * 65536 65536 * 65536 65536";
    for (axiom, number) in [("= / 1 0 1", UNDEFINED), (huge, OUTSIDE)] {
        let faulty = machine_with(&[(30, 0, 0, axiom)]);
        let answer = |step: &str, list: &[Record]| both(&faulty, &table(step), list);
        assert_eq!(answer(ADD, &state()), refused(number));
        assert_eq!(answer(ADD, &state()[..10]), not_allowed());
        assert_eq!(answer(ADD, &[]), not_allowed());
        assert_eq!(answer(ADD, &with(&[(10, 2)])), not_allowed());
        let mut list = state();
        list[4].type_number = 2;
        assert_eq!(answer(ADD, &list), not_allowed());
        assert_eq!(answer("90 2 0 0", &state()), not_allowed());
        assert_eq!(answer("90 3 0 0", &state()), not_allowed());
        assert_eq!(answer(&format!("{ADD}; {IDLE}"), &state()), not_allowed());
        assert_eq!(answer("90 4 0 0; 91 2 3 0", &state()), not_allowed());
        // The second list alone.
        let mut second = filler(10);
        let short = preview(&faulty, &table(ADD), &state(), &mut second);
        assert_eq!(short, Err(refusal(NOT_A_RUN, 0)));
        assert_eq!(second, filler(10));
    }
}

/// With its own row, whatever the lists and the step are.
#[test]
fn a_refused_table_keeps_its_number_and_row() {
    let unused = bytes_of(&rows(L)[..11]);
    let mut bad = state();
    bad[3].type_number = 9;
    for list in [vec![], state(), bad] {
        for step in [vec![], table(ADD), b"torn".to_vec()] {
            assert_eq!(both(&unused, &step, &list), Err(refusal(USE, 7)));
            assert_eq!(both(&[], &step, &list), Err(refusal(MISSING, 0)));
            assert_eq!(both(&[b' '; 37], &step, &list), Err(refusal(FRAME, 0)));
            let mut second = filler(5);
            let answer = preview(&unused, &step, &list, &mut second);
            assert_eq!(answer, Err(refusal(USE, 7)));
            assert_eq!(second, filler(5));
        }
    }
}

#[test]
fn axioms_are_read_at_each_press() {
    assert_eq!(answer(IDLE, &with(&[(1, 0)])), not_allowed());
    assert_eq!(answer(IDLE, &with(&[(6, 0)])), not_allowed());
    let (undefined, outside) = ("= / 1 - i1 5 1", "< 0 * i1 i1");
    let with_axioms = |axioms: &[&'static str], c: i64| {
        let more: Vec<Named> = axioms.iter().map(|&words| (30, 0, 0, words)).collect();
        both(&machine_with(&more), &table(IDLE), &with(&[(1, c)])).err()
    };
    assert_eq!(with_axioms(&[undefined], 5), Some(refusal(UNDEFINED, 0)));
    assert_eq!(with_axioms(&[undefined], 6), None);
    assert_eq!(with_axioms(&[undefined], 7), Some(refusal(NOT_A_RUN, 0)));
    assert_eq!(with_axioms(&[outside], 1 << 40), Some(refusal(OUTSIDE, 0)));
    // In table order: the first fault decides.
    assert_eq!(
        with_axioms(&["false", undefined], 5),
        Some(refusal(NOT_A_RUN, 0))
    );
    assert_eq!(
        with_axioms(&[undefined, "false"], 5),
        Some(refusal(UNDEFINED, 0))
    );
    assert_eq!(
        with_axioms(&[outside, undefined], 5),
        Some(refusal(UNDEFINED, 0))
    );
}

#[test]
fn axioms_come_before_guards_and_guards_before_variables() {
    let (undefined, outside) = ("= / 1 0 1", "< 0 * * 65536 65536 * 65536 65536");
    let pressed = |more: &[Named], list: &[Record]| both(&machine_with(more), &table(ADD), list);
    let more = [(50, 4, 0, undefined), (30, 0, 0, outside)];
    assert_eq!(pressed(&more, &state()), refused(OUTSIDE));
    let more = [(50, 4, 0, undefined), (30, 0, 0, "false")];
    assert_eq!(pressed(&more, &state()), not_allowed());
    // Guards in table order.
    let more = [(50, 4, 0, outside), (50, 4, 0, undefined)];
    assert_eq!(pressed(&more, &state()), refused(OUTSIDE));
    let more = [(50, 4, 0, "false"), (50, 4, 0, undefined)];
    assert_eq!(pressed(&more, &state()), not_allowed());
    // A 52 that is false comes behind a guard.
    let (more, list) = ([(50, 4, 0, undefined)], with(&[(9, 8)]));
    assert_eq!(pressed(&more, &list), refused(UNDEFINED));
    assert_eq!(pressed(&[], &list), not_allowed());
}

#[test]
fn guards_are_judged_with_the_state_and_the_steps_parameters() {
    let add = |p: i32, list: &[Record]| {
        let step = format!("90 4 0 0; 91 2 {p} 0; 91 9 8 0");
        answer(&step, list).map(|list| list[2].value)
    };
    assert_eq!(add(1, &state()), Ok(3));
    assert_eq!(add(3, &state()), Ok(5));
    assert_eq!(add(4, &state()), Err(refusal(NOT_A_RUN, 0)));
    assert_eq!(add(0, &state()), Err(refusal(NOT_A_RUN, 0)));
    assert_eq!(add(4, &with(&[(1, 6)])), Ok(6));
    assert_eq!(answer(FLIP, &with(&[(3, 0)])), not_allowed());
}

#[test]
fn becomes_such_that_is_judged_with_the_given_after_value() {
    assert_eq!(answer("90 5 0 0; 91 4 0 0", &state()), not_allowed());
    for (w, fits) in [(1, false), (2, true), (6, true), (7, false), (8, false)] {
        let step = format!("90 6 0 0; 91 8 0 0; 91 9 {w} 0");
        let wanted = match fits {
            true => Ok(with(&[(9, w)])),
            false => not_allowed(),
        };
        assert_eq!(answer(&step, &state()), wanted, "{w}");
    }
}

/// x := y, y := x, and z such that z' = x + x: all of the state before.
#[test]
fn all_actions_read_the_state_before() {
    let identifiers = [[3, 1, 0], [6, 1, 0], [3, 1, 0]];
    let exchange = laid_out(
        &identifiers,
        &[[1, 0, 0], [2, 0, 0], [2, 3, 0]],
        &[
            (51, 1, 2, "0"),
            (51, 2, 1, "0"),
            (51, 2, 2, "0"),
            (51, 2, 3, "0"),
            (51, 3, 1, "i2"),
            (51, 3, 2, "i1"),
            (52, 3, 3, "= i3' + i1 i1"),
        ],
    );
    let list = |values: [i64; 3]| records(&identifiers, &values);
    let pressed = |z: i32| {
        let step = table(&format!("90 3 0 0; 91 3 {z} 0"));
        both(&exchange, &step, &list([1, 2, 3]))
    };
    assert_eq!(pressed(2), Ok(list([2, 1, 2])));
    assert_eq!(pressed(4), not_allowed());
}

/// The first fault in identifier order decides, whatever the order of rows; nothing of the variables before it changes.
#[test]
fn variables_are_changed_in_identifier_order_or_not_at_all() {
    let identifiers = [[3, 1, 0], [6, 1, 0], [3, 1, 0]];
    let initial: [Named; 4] = [
        (51, 1, 2, "0"),
        (51, 2, 3, "0"),
        (51, 2, 2, "0"),
        (51, 2, 1, "0"),
    ];
    let pressed = |actions: &[Named], step: &str| {
        let events = [[1, 0, 0], [2, 0, 0], [2, 3, 0]];
        let bytes = laid_out(&identifiers, &events, &[&initial, actions].concat());
        both(&bytes, &table(step), &records(&identifiers, &[10, 20, 30]))
    };
    let (undefined, outside) = ("/ 1 0", "* * 65536 65536 * 65536 65536");
    // A 51 of variable 1 has its value before the next variable's fault.
    let actions = [(51, 3, 3, undefined), (51, 3, 1, "1")];
    assert_eq!(pressed(&actions, "90 3 0 0"), refused(UNDEFINED));
    let actions = [(51, 3, 3, undefined), (51, 3, 1, "1"), (51, 3, 2, outside)];
    assert_eq!(pressed(&actions, "90 3 0 0"), refused(OUTSIDE));
    let actions = [(51, 3, 3, outside), (52, 3, 1, "false")];
    assert_eq!(pressed(&actions, "90 3 0 0; 91 1 1 0"), not_allowed());
    let actions = [(51, 3, 1, undefined), (52, 3, 3, "false")];
    assert_eq!(pressed(&actions, "90 3 0 0; 91 3 1 0"), refused(UNDEFINED));
    let actions = [(51, 3, 1, "1"), (52, 3, 3, "= / 1 i3' 1")];
    assert_eq!(pressed(&actions, "90 3 0 0; 91 3 0 0"), refused(UNDEFINED));
    let wanted = records(&identifiers, &[1, 20, 1]);
    assert_eq!(pressed(&actions, "90 3 0 0; 91 3 1 0"), Ok(wanted));
}

/// One variable that becomes what these words say of it and of a constant.
fn becomes(words: &str, values: [i64; 2]) -> Result<i64, i32> {
    let identifiers = [[3, 1, 0], [1, 1, 0]];
    let events = [[1, 0, 0], [2, 0, 0], [2, 3, 0]];
    let bytes = laid_out(&identifiers, &events, &[(51, 2, 1, "0"), (51, 3, 1, words)]);
    let answer = both(&bytes, &table("90 3 0 0"), &records(&identifiers, &values));
    answer
        .map(|list| list[0].value)
        .map_err(|refusal| refusal.number)
}

#[test]
fn records_hold_and_get_values_of_64_bits() {
    let (lowest, highest) = (i64::MIN, i64::MAX);
    assert_eq!(becomes("i2", [0, highest]), Ok(highest));
    assert_eq!(becomes("i2", [0, lowest]), Ok(lowest));
    assert_eq!(becomes("+ i1 1", [i64::from(i32::MAX), 0]), Ok(1 << 31));
    assert_eq!(becomes("+ i1 1", [highest - 1, 0]), Ok(highest));
    assert_eq!(becomes("+ i1 1", [highest, 0]), Err(OUTSIDE));
    assert_eq!(becomes("- i1 1", [lowest + 1, 0]), Ok(lowest));
    assert_eq!(becomes("- i1 1", [lowest, 0]), Err(OUTSIDE));
    assert_eq!(becomes("neg i1", [lowest, 0]), Err(OUTSIDE));
    assert_eq!(becomes("/ i1 i2", [lowest, -1]), Err(OUTSIDE));
    assert_eq!(becomes("* i1 i2", [1 << 62, -2]), Ok(lowest));
    assert_eq!(becomes("* i1 i2", [1 << 62, 2]), Err(OUTSIDE));
    assert_eq!(becomes("/ i1 i2", [highest, 0]), Err(UNDEFINED));
    assert_eq!(becomes("/ + i1 i1 i2", [highest, 0]), Err(OUTSIDE));
    assert_eq!(becomes("/ i1 + i2 i2", [1, highest]), Err(OUTSIDE));
    assert_eq!(becomes("- - i1 i2 1", [lowest, 0]), Err(OUTSIDE));
}

#[test]
fn remainders_of_64_bits() {
    let (lowest, highest) = (i64::MIN, i64::MAX);
    for (values, wanted) in [
        ([0, 1], 0),
        ([highest, 1], 0),
        ([highest, highest], 0),
        ([highest - 1, highest], highest - 1),
        ([highest, 10], 7),
    ] {
        assert_eq!(becomes("mod i1 i2", values), Ok(wanted), "{values:?}");
    }
    for values in [
        [-1, 1],
        [lowest, 1],
        [lowest, -1],
        [lowest, lowest],
        [0, 0],
        [0, -1],
        [highest, lowest],
    ] {
        assert_eq!(becomes("mod i1 i2", values), Err(UNDEFINED), "{values:?}");
    }
    // i1 + i1 is outside, which comes before what the operator says of either operand.
    for outside in [lowest, highest] {
        for other in [1, 0, -1] {
            assert_eq!(becomes("mod + i1 i1 i2", [outside, other]), Err(OUTSIDE));
            assert_eq!(becomes("mod i2 + i1 i1", [outside, other]), Err(OUTSIDE));
        }
    }
}

/// As in replay: of two faults, the left one counts.
#[test]
fn terms_are_read_by_replays_rules() {
    let highest = [i64::MAX, 0];
    assert_eq!(becomes("+ + i1 1 / 1 i2", highest), Err(OUTSIDE));
    assert_eq!(becomes("* / 1 i2 + i1 1", highest), Err(UNDEFINED));
    let guarded = |words: &'static str| {
        let more = [(50, 7, 0, words)];
        let answer = both(&machine_with(&more), &table(IDLE), &with(&[(3, i64::MAX)]));
        answer.map(|_| ()).map_err(|refusal| refusal.number)
    };
    assert_eq!(guarded("< + i3 1 / 1 0"), Err(OUTSIDE));
    assert_eq!(guarded("< / 1 0 + i3 1"), Err(UNDEFINED));
    assert_eq!(guarded("and < + i3 1 0 = / 1 0 1"), Err(OUTSIDE));
    assert_eq!(guarded("or true = / 1 0 1"), Ok(()));
    assert_eq!(guarded("and false = / 1 0 1"), Err(NOT_A_RUN));
    assert_eq!(guarded("=> false = / 1 0 1"), Ok(()));
    assert_eq!(guarded("<=> false = / 1 0 1"), Err(UNDEFINED));
}

#[test]
fn a_table_without_identifiers_has_an_empty_list() {
    let bare = table("20 30 0 0; 40 1 0 0; 40 1 1 0; 40 2 0 0; 40 2 1 2; 50 4 1 0");
    assert_eq!(both(&bare, &table("90 4 0 0"), &[]), Ok(vec![]));
    assert_eq!(both(&bare, &table("90 3 0 0"), &[]), not_allowed());
    let one = filler(1);
    assert_eq!(both(&bare, &table("90 4 0 0"), &one), not_allowed());
}

/// The most records that a table can ask for.
#[test]
fn a_table_with_64_identifiers_has_64_records() {
    let mut identifiers = vec![[1, 1, 0]; 64];
    identifiers[63] = [3, 1, 0];
    let events = [[1, 0, 0], [2, 0, 0], [2, 3, 0]];
    let bytes = laid_out(
        &identifiers,
        &events,
        &[(51, 2, 64, "0"), (51, 3, 64, "+ i63 i64")],
    );
    let values: Vec<i64> = (1..=64).collect();
    let mut list = records(&identifiers, &values);
    let mut wanted = list.clone();
    wanted[63].value = 127;
    assert_eq!(both(&bytes, &table("90 3 0 0"), &list), Ok(wanted));
    list.push(list[0]);
    assert_eq!(both(&bytes, &table("90 3 0 0"), &list), not_allowed());
    list.push(list[0]);
    assert_eq!(both(&bytes, &table("90 3 0 0"), &list), not_allowed());
    assert_eq!(both(&bytes, &table("90 3 0 0"), &list[..63]), not_allowed());
}
