//! The marked cases P1 to P10.

use crate::common::{refusal, rows, table, L};
use compare::evaluate::{evaluate, NoValue, Reading, Value, Values};
use compare::formula::*;
use compare::rows::{bytes_of, Row};
use compare::sequents::{sequents, spell_out, Sequent};
use compare::services::{check, print, spell_entry, write_sequent};
use compare::table::Table;

#[test]
fn p1_prints_table_l() {
    let wanted = "80 6 2 1; 84 2 1 2; 81 4 2 2; 82 6 2 1;
        80 5 2 1; 84 1 1 1; 81 4 2 2; 81 1 5 0; 82 4 1 1";
    assert_eq!(print(&table(L)), table(wanted));
    let bytes = print(&table(L));
    assert_eq!(&bytes[..38], b"  80          6          2          1\n");
    assert_eq!(&bytes[38..76], b"  84          2          1          2\n");
    assert_eq!(bytes.len(), 9 * 38);
}

#[test]
fn p2_counts_two() {
    assert_eq!(check(&table(L)), Ok(2));
    let mut out = [0; 200];
    assert_eq!(write_sequent(&table(L), 2, &mut out), Ok(5));
    for k in [0, 3, usize::MAX] {
        assert_eq!(write_sequent(&table(L), k, &mut out), Err(refusal(13, 0)));
        assert_eq!(spell_entry(&table(L), k, 1, &mut out), Err(refusal(13, 0)));
    }
}

#[test]
fn p3_fits_190_bytes() {
    let mut out = [7; 191];
    assert_eq!(write_sequent(&table(L), 2, &mut out[..190]), Ok(5));
    let wanted = "80 5 2 1; 84 1 1 1; 81 4 2 2; 81 1 5 0; 82 4 1 1";
    assert_eq!(out[..190], table(wanted));
    assert_eq!(out[190], 7);
    let mut short = [7; 189];
    assert_eq!(write_sequent(&table(L), 2, &mut short), Err(refusal(15, 0)));
    assert_eq!(short, [7; 189]);
}

#[test]
fn p4_last_row_left_out() {
    let mut rows = rows(L);
    rows.pop();
    assert_eq!(check(&bytes_of(&rows)), Err(refusal(9, 7)));
    assert_eq!(print(&bytes_of(&rows)), table("89 9 7 0"));
}

#[test]
fn p5_second_witness() {
    let mut rows = rows(L);
    rows.insert(7, Row::new(20, 30, 0, 0));
    rows.push(Row::new(60, 2, 1, 6));
    assert_eq!(check(&bytes_of(&rows)), Err(refusal(11, 14)));
}

#[test]
fn p6_empty_input() {
    assert_eq!(check(&[]), Err(refusal(12, 0)));
    assert_eq!(print(&[]), table("89 12 0 0"));
}

#[test]
fn p7_a_torn_row() {
    assert_eq!(check(&[b' '; 37]), Err(refusal(1, 0)));
    assert_eq!(print(&table(L)[..37]), table("89 1 0 0"));
}

/// The value of a spelled formula with one integer constant for each number given.
fn value(spelled: &[Symbol], numbers: &[i128]) -> Result<Value, NoValue> {
    let now: Vec<Value> = numbers.iter().map(|&n| Value::Integer(n)).collect();
    let values = Values {
        after: now.clone(),
        now,
    };
    evaluate(spelled, &Table::default(), &values, Reading::Run)
}

/// Request 7 has −7 mod 2 undefined.
#[test]
fn p8_division_rounds_toward_zero() {
    let pair = |operator| [bare(operator), Symbol::new(1, -7), Symbol::new(1, 2)];
    assert_eq!(value(&pair(DIVIDE), &[]), Ok(Value::Integer(-3)));
    assert_eq!(value(&pair(MOD), &[]), Err(NoValue::Undefined));
}

#[test]
fn p9_reads_the_left_side_first() {
    let (a, b) = (Symbol::new(IDENTIFIER, 1), Symbol::new(IDENTIFIER, 2));
    let zero = Symbol::new(LITERAL, 0);
    let one = Symbol::new(LITERAL, 1);
    let not_zero = [bare(NOT), bare(EQUAL), b, zero];
    let is_one = [bare(EQUAL), bare(DIVIDE), a, b, one];
    let straight = [&[bare(AND)][..], &not_zero, &is_one].concat();
    let exchanged = [&[bare(AND)][..], &is_one, &not_zero].concat();
    assert_eq!(value(&straight, &[4, 0]), Ok(Value::Truth(false)));
    assert_eq!(value(&exchanged, &[4, 0]), Err(NoValue::Undefined));
    assert_eq!(value(&straight, &[4, 4]), Ok(Value::Truth(true)));
    assert_eq!(value(&exchanged, &[4, 4]), Ok(Value::Truth(true)));
}

/// One convergent event that lowers its only variable by one, under a guard.
const LOWERING: &str = "10 3 1 0; 20 1 0 0; 20 1 0 0; 20 2 1 0; 20 22 2 3;
    20 2 1 0; 20 1 1 0; 20 11 5 6; 20 2 1 0; 40 1 0 0; 40 2 0 0; 40 2 2 0;
    50 3 4 0; 51 2 1 1; 51 3 1 7; 70 8 0 0";

/// Whether the sequent holds for these values before and after.
fn holds(table: &Table, sequent: &Sequent, before: i128, after: i128) -> bool {
    let values = Values {
        now: vec![Value::Integer(before)],
        after: vec![Value::Integer(after)],
    };
    let truth = |entry| {
        let spelled = spell_out(table, entry);
        evaluate(&spelled, table, &values, Reading::Sequent) == Ok(Value::Truth(true))
    };
    !sequent.hypotheses.iter().all(|&entry| truth(entry)) || truth(sequent.goal)
}

fn all_hold(rows: Vec<Row>) -> bool {
    let table = Table::new(rows);
    sequents(&table).iter().all(|sequent| {
        (-9..9).all(|before| (-9..9).all(|after| holds(&table, sequent, before, after)))
    })
}

#[test]
fn p10_variant_0_allows_one_step() {
    assert!(check(&table(LOWERING)).is_ok());
    assert!(all_hold(rows(LOWERING)));
    // From 0 the guard lets one step through, to -1, and then no more: 0 plus one.
    let guard = [bare(AT_MOST), Symbol::new(LITERAL, 0), Symbol::new(2, 1)];
    assert_eq!(value(&guard, &[0]), Ok(Value::Truth(true)));
    assert_eq!(value(&guard, &[-1]), Ok(Value::Truth(false)));
    // With a guard that lets two steps through, NAT fails.
    let mut wider = rows(LOWERING);
    wider[2].b = -1;
    assert!(!all_hold(wider));
}
