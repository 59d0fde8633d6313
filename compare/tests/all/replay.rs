//! Request 5 sentence by sentence: logs whose replies are counted by hand. tests/all/replay_terms.rs has the values of terms.

use crate::common::machine::{EVENTS, FORMULAS, IDENTIFIERS};
use crate::common::prefix::{laid_out, Named};
use crate::common::{self, refusal, rows, table, L};
use compare::checks::{Refusal, FRAME, MISSING, USE};
use compare::replay::{replay, NOT_A_RUN, OUTSIDE, UNDEFINED};
use compare::rows::{bytes_of, Row, ROW_BYTES};

/// A run of four steps. Its rows 90 are 1, 7, 12, 16 and 21.
const RUN: &str = "
    90 3 0 0; 91 1 5 0; 91 3 0 0; 91 4 0 0; 91 6 1 0; 91 9 7 0 # c = 5, v = 0, s = FALSE, k = TRUE, w = 7
    90 4 0 0; 91 2 2 0; 91 3 2 0; 91 4 0 0; 91 9 7 0           # add p = 2
    90 5 0 0; 91 3 2 0; 91 4 1 0; 91 9 7 0                     # flip
    90 6 0 0; 91 3 2 0; 91 4 0 0; 91 8 0 0; 91 9 2 0           # set q = FALSE, w = 2
    90 7 0 0; 91 3 2 0; 91 4 0 0; 91 9 2 0                     # idle
";

/// The machine with more formulas before its own.
fn machine_with(more: &[Named]) -> Vec<u8> {
    let mut formulas = more.to_vec();
    formulas.extend(FORMULAS);
    formulas.push((70, 0, 0, "0"));
    laid_out(&IDENTIFIERS, &EVENTS, &formulas)
}

fn answer(log: &[u8]) -> Result<u64, Refusal> {
    replay(&machine_with(&[]), log)
}

/// The answer to the run with the row of this number changed.
fn changed(row: usize, numbers: [i32; 4]) -> Result<u64, Refusal> {
    answer(&common::changed(RUN, row, numbers))
}

/// The run's rows up to one, counted from 1, that still stands.
fn first_rows(count: usize) -> Vec<u8> {
    bytes_of(&rows(RUN)[..count])
}

/// The run with rows put in before this one.
fn inserted(row: usize, text: &str) -> Vec<u8> {
    let mut all = rows(RUN);
    all.splice(row - 1..row - 1, rows(text));
    bytes_of(&all)
}

fn not_a_run(row: usize) -> Result<u64, Refusal> {
    Err(refusal(NOT_A_RUN, row))
}

#[test]
fn a_run_gives_its_steps_after_the_initialisation() {
    assert_eq!(answer(&table(RUN)), Ok(4));
    assert_eq!(answer(&first_rows(20)), Ok(3));
    assert_eq!(answer(&first_rows(15)), Ok(2));
    assert_eq!(answer(&first_rows(11)), Ok(1));
    assert_eq!(answer(&first_rows(6)), Ok(0));
}

#[test]
fn table_l_has_one_run() {
    let run = |text| replay(&table(L), &table(text));
    assert_eq!(run("90 2 0 0; 91 2 0 0"), Ok(0));
    assert_eq!(run("90 2 0 0; 91 2 1 0"), not_a_run(1));
    assert_eq!(run("90 1 0 0; 91 1 0 0"), not_a_run(1));
    assert_eq!(run("90 2 0 0; 91 1 0 0"), not_a_run(2));
    assert_eq!(run("90 2 0 0; 91 2 0 0; 91 2 0 0"), not_a_run(3));
    assert_eq!(run("90 2 0 0"), not_a_run(0));
}

#[test]
fn a_table_without_logged_identifiers_has_rows_90_alone() {
    let bare = "20 30 0 0; 40 1 0 0; 40 1 1 0; 40 2 0 0; 40 2 1 2; 50 4 1 0";
    let run = |text| replay(&table(bare), &table(text));
    assert_eq!(run("90 3 0 0"), Ok(0));
    assert_eq!(run("90 3 0 0; 90 4 0 0; 90 4 0 0"), Ok(2));
    assert_eq!(run("90 3 0 0; 90 4 0 0; 90 3 0 0"), not_a_run(3));
    assert_eq!(run("90 3 0 0; 90 4 0 0; 91 1 0 0"), not_a_run(3));
    assert_eq!(run("90 4 0 0"), not_a_run(1));
}

#[test]
fn an_empty_log_is_refused_with_row_0() {
    assert_eq!(answer(&[]), not_a_run(0));
}

#[test]
fn a_log_that_ends_inside_a_step_is_refused_with_row_0() {
    let whole = [6, 11, 15, 20, 24];
    for count in 1..24 {
        if !whole.contains(&count) {
            assert_eq!(answer(&first_rows(count)), not_a_run(0), "{count}");
        }
    }
}

#[test]
fn a_torn_row_is_refused_with_its_number_inside_a_step_and_between_steps() {
    let run = table(RUN);
    for length in 1..run.len() {
        let wanted = match length % ROW_BYTES {
            0 => continue,
            _ => not_a_run(length / ROW_BYTES + 1),
        };
        assert_eq!(answer(&run[..length]), wanted, "{length}");
    }
    assert_eq!(answer(b" "), not_a_run(1));
}

#[test]
fn a_torn_row_doesnt_hide_an_earlier_fault() {
    let mut log = common::changed(RUN, 8, [91, 2, 0, 0]);
    log.truncate(11 * ROW_BYTES);
    assert_eq!(answer(&log), not_a_run(7));
    log.extend(b"  90");
    assert_eq!(answer(&log), not_a_run(7));
}

/// The step of row 7 isn't allowed; rows after it are bad.
#[test]
fn a_step_is_judged_before_the_next_steps_rows_are_read() {
    for bad in ["89 1 1 0", "91 3 2 0", "90 1 0 0", "90 4 0 1", "90 3 0 0"] {
        let mut log = common::changed(RUN, 8, [91, 2, 0, 0]);
        log.truncate(11 * ROW_BYTES);
        log.extend(table(bad));
        assert_eq!(answer(&log), not_a_run(7), "{bad}");
    }
}

/// p is 0 in row 8, and s is 2 in row 10.
#[test]
fn all_rows_of_a_step_are_read_before_it_is_judged() {
    let mut log = common::changed(RUN, 8, [91, 2, 0, 0]);
    log[9 * ROW_BYTES..10 * ROW_BYTES].copy_from_slice(&table("91 4 2 0"));
    assert_eq!(answer(&log), not_a_run(10));
    assert_eq!(answer(&log[..9 * ROW_BYTES]), not_a_run(0));
    assert_eq!(answer(&log[..9 * ROW_BYTES + 1]), not_a_run(10));
}

#[test]
fn the_first_of_two_bad_rows_is_named() {
    let mut log = common::changed(RUN, 9, [91, 9, 2, 0]);
    log[9 * ROW_BYTES..10 * ROW_BYTES].copy_from_slice(&table("91 4 2 0"));
    assert_eq!(answer(&log), not_a_run(9));
}

#[test]
fn the_first_row_names_the_concrete_initialisation() {
    for event in [i32::MIN, -3, 0, 1, 2, 4, 5, 6, 7, 8, i32::MAX] {
        assert_eq!(changed(1, [90, event, 0, 0]), not_a_run(1), "{event}");
    }
}

#[test]
fn later_rows_90_name_concrete_events_but_the_initialisation() {
    for event in [i32::MIN, -4, 0, 1, 2, 3, 8, i32::MAX] {
        assert_eq!(changed(7, [90, event, 0, 0]), not_a_run(7), "{event}");
        // Its rows 91 don't count.
        let mut log = first_rows(11);
        log.extend(bytes_of(&[Row::new(90, event, 0, 0)]));
        assert_eq!(answer(&log), not_a_run(12), "{event}");
    }
}

#[test]
fn the_initialisation_comes_once() {
    let mut log = first_rows(6);
    log.extend(first_rows(6));
    assert_eq!(answer(&log), not_a_run(7));
}

#[test]
fn a_wrong_event_is_refused_before_its_rows_91() {
    let mut log = common::changed(RUN, 7, [90, 2, 0, 0]);
    log[7 * ROW_BYTES] = b'x';
    assert_eq!(answer(&log), not_a_run(7));
}

/// The rows of add aren't those of flip: row 8 names p.
#[test]
fn another_event_has_other_rows() {
    assert_eq!(changed(7, [90, 5, 0, 0]), not_a_run(8));
    assert_eq!(changed(12, [90, 4, 0, 0]), not_a_run(13));
    // Idle has those of flip, and keeps s.
    assert_eq!(changed(12, [90, 7, 0, 0]), not_a_run(12));
    // Flip has those of idle, and changes s.
    assert_eq!(changed(21, [90, 5, 0, 0]), not_a_run(21));
}

#[test]
fn unused_columns_are_0() {
    for (row, event) in [(1, 3), (7, 4)] {
        assert_eq!(changed(row, [90, event, 1, 0]), not_a_run(row));
        assert_eq!(changed(row, [90, event, 0, 1]), not_a_run(row));
        assert_eq!(changed(row, [90, event, 0, -1]), not_a_run(row));
    }
    assert_eq!(changed(2, [91, 1, 5, 1]), not_a_run(2));
    assert_eq!(changed(11, [91, 9, 7, -1]), not_a_run(11));
}

#[test]
fn other_tags_are_unexpected() {
    for tag in [-999, -90, 0, 10, 20, 40, 51, 89, 92, 990, 9999] {
        assert_eq!(changed(1, [tag, 3, 0, 0]), not_a_run(1), "{tag}");
        assert_eq!(changed(7, [tag, 4, 0, 0]), not_a_run(7), "{tag}");
        assert_eq!(changed(8, [tag, 2, 2, 0]), not_a_run(8), "{tag}");
        assert_eq!(changed(24, [tag, 9, 2, 0]), not_a_run(24), "{tag}");
    }
    assert_eq!(changed(1, [91, 3, 0, 0]), not_a_run(1));
    assert_eq!(changed(7, [91, 4, 0, 0]), not_a_run(7));
    assert_eq!(changed(8, [90, 2, 2, 0]), not_a_run(8));
    assert_eq!(changed(8, [90, 4, 0, 0]), not_a_run(8));
}

#[test]
fn identifiers_come_in_order() {
    // Exchanged, missing, twice.
    let mut log = rows(RUN);
    log.swap(1, 2);
    assert_eq!(answer(&bytes_of(&log)), not_a_run(2));
    let mut log = rows(RUN);
    log.remove(3);
    assert_eq!(answer(&bytes_of(&log)), not_a_run(4));
    assert_eq!(answer(&inserted(5, "91 4 0 0")), not_a_run(5));
    // A variable before a parameter whose number is lower.
    let mut log = rows(RUN);
    log.swap(7, 8);
    assert_eq!(answer(&bytes_of(&log)), not_a_run(8));
    // A parameter behind the variables: q has number 8, w 9.
    let mut log = rows(RUN);
    log.swap(18, 19);
    assert_eq!(answer(&bytes_of(&log)), not_a_run(19));
}

#[test]
fn only_what_the_step_logs_is_expected() {
    // Constants after the initialisation, abstract ones, another event's parameter, one too many, numbers of none.
    assert_eq!(answer(&inserted(8, "91 1 5 0")), not_a_run(8));
    assert_eq!(answer(&inserted(5, "91 5 0 0")), not_a_run(5));
    assert_eq!(answer(&inserted(3, "91 2 2 0")), not_a_run(3));
    assert_eq!(answer(&inserted(13, "91 2 2 0")), not_a_run(13));
    assert_eq!(answer(&inserted(7, "91 9 7 0")), not_a_run(7));
    for number in [i32::MIN, -1, 0, 10, 65, i32::MAX] {
        assert_eq!(changed(8, [91, number, 2, 0]), not_a_run(8), "{number}");
    }
}

#[test]
fn booleans_are_0_or_1() {
    for value in [i32::MIN, -1, 2, 3, 256, i32::MAX] {
        assert_eq!(changed(4, [91, 4, value, 0]), not_a_run(4), "{value}");
        assert_eq!(changed(5, [91, 6, value, 0]), not_a_run(5), "{value}");
        assert_eq!(changed(19, [91, 8, value, 0]), not_a_run(19), "{value}");
        assert_eq!(changed(23, [91, 4, value, 0]), not_a_run(23), "{value}");
    }
    // Either is in the form; that the step isn't allowed names its row 90.
    assert_eq!(changed(5, [91, 6, 0, 0]), not_a_run(1));
    assert_eq!(changed(19, [91, 8, 1, 0]), not_a_run(16));
}

#[test]
fn a_row_out_of_the_row_form_is_refused_with_its_number() {
    let bad: [&[u8; ROW_BYTES]; 9] = [
        b"  91          2 2147483648          0\n",
        b"  91          2-2147483649          0\n",
        b"  91          2         02          0\n",
        b"  91          2         +2          0\n",
        b"  91          2         -0          0\n",
        b"  91          2        2            0\n",
        b"  91          2                     0\n",
        b"  91          2          2          0 ",
        b" 091          2          2          0\n",
    ];
    for bytes in bad {
        let mut log = table(RUN);
        log[7 * ROW_BYTES..8 * ROW_BYTES].copy_from_slice(bytes);
        let text = bytes.escape_ascii();
        assert_eq!(answer(&log), not_a_run(8), "{text}");
    }
    let mut log = table(RUN);
    log[6 * ROW_BYTES] = b'0';
    assert_eq!(answer(&log), not_a_run(7));
}

#[test]
fn axioms_are_true_at_the_initialisation() {
    assert_eq!(changed(2, [91, 1, 0, 0]), not_a_run(1));
    assert_eq!(changed(5, [91, 6, 0, 0]), not_a_run(1));
}

#[test]
fn the_initialisations_actions_allow_what_it_leaves() {
    assert_eq!(changed(3, [91, 3, 1, 0]), not_a_run(1));
    assert_eq!(changed(4, [91, 4, 1, 0]), not_a_run(1));
    assert_eq!(changed(6, [91, 9, -1, 0]), not_a_run(1));
    // w may be 8, but then add, which doesn't assign it, changes it to 7.
    assert_eq!(changed(6, [91, 9, 8, 0]), not_a_run(7));
}

#[test]
fn guards_are_true() {
    let run = |p: i32| {
        let (row, next) = (Row::new(91, 2, p, 0), Row::new(91, 3, p, 0));
        let mut log = rows(RUN)[..11].to_vec();
        (log[7], log[8]) = (row, next);
        answer(&bytes_of(&log))
    };
    assert_eq!(run(1), Ok(1));
    assert_eq!(run(5), Ok(1));
    assert_eq!(run(6), not_a_run(7));
    assert_eq!(run(0), not_a_run(7));
    assert_eq!(run(-1), not_a_run(7));
    assert_eq!(run(i32::MAX), not_a_run(7));
    // Flip before add: v is 0.
    let flip = "90 5 0 0; 91 3 0 0; 91 4 1 0; 91 9 7 0";
    assert_eq!(answer(&inserted(7, flip)), not_a_run(7));
}

#[test]
fn becomes_equal_is_judged_in_the_state_before() {
    assert_eq!(changed(9, [91, 3, 3, 0]), not_a_run(7));
    assert_eq!(changed(18, [91, 4, 1, 0]), not_a_run(16));
}

#[test]
fn becomes_such_that_is_judged_with_the_logged_after_value() {
    assert_eq!(changed(14, [91, 4, 0, 0]), not_a_run(12));
    let set = |w: i32| {
        let mut log = rows(RUN)[..20].to_vec();
        log[19] = Row::new(91, 9, w, 0);
        answer(&bytes_of(&log))
    };
    assert_eq!([2, 3, 6].map(set), [Ok(3); 3]);
    assert_eq!([1, 7, 8].map(set), [not_a_run(16); 3]);
}

#[test]
fn an_unassigned_variable_keeps_its_value() {
    assert_eq!(changed(10, [91, 4, 1, 0]), not_a_run(7));
    assert_eq!(changed(11, [91, 9, 8, 0]), not_a_run(7));
    assert_eq!(changed(13, [91, 3, 3, 0]), not_a_run(12));
    assert_eq!(changed(22, [91, 3, 0, 0]), not_a_run(21));
    assert_eq!(changed(24, [91, 9, 7, 0]), not_a_run(21));
}

/// x := y and y := x exchange the two.
#[test]
fn all_actions_read_the_state_before() {
    let exchange = laid_out(
        &[[3, 1, 0], [3, 1, 0]],
        &[[1, 0, 0], [2, 0, 0], [2, 3, 0]],
        &[
            (51, 2, 1, "1"),
            (51, 2, 2, "2"),
            (51, 3, 1, "i2"),
            (52, 3, 2, "= i2' i1"),
        ],
    );
    let start = "90 2 0 0; 91 1 1 0; 91 2 2 0;";
    let run = |text: &str| replay(&exchange, &table(&format!("{start}{text}")));
    assert_eq!(run("90 3 0 0; 91 1 2 0; 91 2 1 0"), Ok(1));
    assert_eq!(run("90 3 0 0; 91 1 2 0; 91 2 2 0"), not_a_run(4));
    let twice = "90 3 0 0; 91 1 2 0; 91 2 1 0; 90 3 0 0; 91 1 1 0; 91 2 2 0";
    assert_eq!(run(twice), Ok(2));
}

/// A parameter's value counts for its step alone, a constant's for all.
#[test]
fn constants_stay_and_parameters_go() {
    let again = "90 4 0 0; 91 2 3 0; 91 3 5 0; 91 4 0 0; 91 9 7 0";
    let mut log = first_rows(11);
    log.extend(table(again));
    assert_eq!(answer(&log), Ok(2));
    // c is 5: one more is too much.
    log.extend(table("90 4 0 0; 91 2 1 0; 91 3 6 0; 91 4 0 0; 91 9 7 0"));
    assert_eq!(answer(&log), not_a_run(17));
}

/// An undefined and a false formula more, before the others of their sort.
#[test]
fn axioms_come_first_then_guards_then_variables() {
    let answer = |more: &[Named], log: &[u8]| replay(&machine_with(more), log);
    let (undefined, falsehood) = ("= / 1 0 1", "false");
    let run = table(RUN);
    assert_eq!(
        answer(&[(30, 0, 0, undefined), (30, 0, 0, falsehood)], &run),
        Err(refusal(UNDEFINED, 1))
    );
    assert_eq!(
        answer(&[(30, 0, 0, falsehood), (30, 0, 0, undefined)], &run),
        not_a_run(1)
    );
    assert_eq!(
        answer(&[(50, 4, 0, undefined), (50, 4, 0, falsehood)], &run),
        Err(refusal(UNDEFINED, 7))
    );
    assert_eq!(
        answer(&[(50, 4, 0, falsehood), (50, 4, 0, undefined)], &run),
        not_a_run(7)
    );
    // v at the initialisation isn't 0, but an axiom is undefined; v after add isn't 2, but a guard is undefined.
    let wrong = common::changed(RUN, 3, [91, 3, 1, 0]);
    assert_eq!(
        answer(&[(30, 0, 0, undefined)], &wrong),
        Err(refusal(UNDEFINED, 1))
    );
    let wrong = common::changed(RUN, 9, [91, 3, 3, 0]);
    assert_eq!(
        answer(&[(50, 4, 0, undefined)], &wrong),
        Err(refusal(UNDEFINED, 7))
    );
}

/// Axioms are read at the initialisation only, and no formula of another event.
#[test]
fn other_formulas_are_not_read() {
    let more = [(50, 2, 0, "= / 1 0 1"), (51, 2, 5, "/ 1 0")];
    assert_eq!(replay(&machine_with(&more), &table(RUN)), Ok(4));
    let more = [(50, 7, 0, "= / 1 0 1")];
    assert_eq!(
        replay(&machine_with(&more), &table(RUN)),
        Err(refusal(UNDEFINED, 21))
    );
    assert_eq!(replay(&machine_with(&more), &first_rows(20)), Ok(3));
}

/// Variables in identifier order, whatever the order of their actions' rows.
#[test]
fn variables_are_judged_in_identifier_order() {
    let identifiers = [[3, 1, 0], [6, 1, 0], [3, 1, 0]];
    let events = [[1, 0, 0], [2, 0, 0], [2, 3, 0]];
    let initial: [Named; 4] = [
        (51, 1, 2, "0"),
        (51, 2, 3, "0"),
        (51, 2, 2, "0"),
        (51, 2, 1, "0"),
    ];
    let run = |actions: &[Named], values: [i32; 3]| {
        let table_bytes = laid_out(&identifiers, &events, &[&initial, actions].concat());
        let [x, y, z] = values;
        let start = "90 2 0 0; 91 1 0 0; 91 2 0 0; 91 3 0 0; 90 3 0 0";
        let log = format!("{start}; 91 1 {x} 0; 91 2 {y} 0; 91 3 {z} 0");
        replay(&table_bytes, &table(&log))
    };
    let undefined = Err(refusal(UNDEFINED, 5));
    let outside = Err(refusal(OUTSIDE, 5));
    let huge = "* * * 65536 65536 65536 65536";
    // 51 of variable 3 comes before 52 of variable 1 in the table.
    let actions = [(51, 3, 3, "/ 1 0"), (52, 3, 1, "false")];
    assert_eq!(run(&actions, [0, 0, 0]), not_a_run(5));
    let actions = [(51, 3, 3, "1"), (52, 3, 1, "= / 1 0 0")];
    assert_eq!(run(&actions, [0, 0, 0]), undefined);
    let actions = [
        (51, 3, 3, "/ 1 0"),
        (52, 3, 1, "< 0 * 65536 * 65536 * 65536 65536"),
    ];
    assert_eq!(run(&actions, [0, 0, 0]), outside);
    // Variable 2, unassigned, stands between.
    let actions = [(51, 3, 3, huge), (51, 3, 1, "0")];
    assert_eq!(run(&actions, [0, 0, 0]), outside);
    assert_eq!(run(&actions, [0, 1, 0]), not_a_run(5));
    let actions = [(51, 3, 1, huge)];
    assert_eq!(run(&actions, [0, 1, 0]), outside);
    assert_eq!(run(&[], [0, 0, 0]), Ok(1));
}

/// The root has more than 32 bits, so no row can log it.
#[test]
fn a_value_that_no_row_can_log_is_not_allowed() {
    let run = |words: &str, value: i32| {
        let events = [[1, 0, 0], [2, 0, 0]];
        let bytes = laid_out(&[[3, 1, 0]], &events, &[(51, 2, 1, words)]);
        replay(&bytes, &table(&format!("90 2 0 0; 91 1 {value} 0")))
    };
    assert_eq!(run("+ 2147483647 1", i32::MIN), not_a_run(1));
    assert_eq!(run("+ 2147483647 1", 0), not_a_run(1));
    assert_eq!(run("- + 2147483647 1 1", i32::MAX), Ok(0));
    assert_eq!(run("* 65536 65536", 0), not_a_run(1));
}

#[test]
fn the_tables_refusal_comes_first_with_its_row() {
    let bad = rows(L);
    let unused = bytes_of(&bad[..11]);
    for log in [vec![], table("90 2 0 0; 91 2 0 0"), b"torn".to_vec()] {
        assert_eq!(replay(&unused, &log), Err(refusal(USE, 7)));
        assert_eq!(replay(&[], &log), Err(refusal(MISSING, 0)));
        assert_eq!(replay(&[b' '; 37], &log), Err(refusal(FRAME, 0)));
    }
}

/// A log has no limit: 65,536 bytes hold 1,724 rows.
#[test]
fn a_log_may_be_longer_than_a_table() {
    let mut log = table(RUN);
    let idle = table("90 7 0 0; 91 3 2 0; 91 4 0 0; 91 9 2 0");
    for _ in 0..5000 {
        log.extend(&idle);
    }
    assert_eq!(answer(&log), Ok(5004));
    log.extend(&idle[..2 * ROW_BYTES]);
    assert_eq!(answer(&log), not_a_run(0));
    log.push(b' ');
    assert_eq!(answer(&log), not_a_run(24 + 4 * 5000 + 3));
}
