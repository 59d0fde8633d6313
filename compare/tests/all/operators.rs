//! The tables of operators: they show all that is asked of them, and replies are the paper's.

use crate::common::{self, has, table, OPERATORS};
use compare::checks::accept;
use compare::formula::Sort::{Boolean, Integer, Predicate};
use compare::formula::*;
use compare::operators::coverage::{shown, Case};
use compare::operators::wanted::{missing, wanted};
use compare::operators::*;
use compare::rows::Row;
use compare::sequents::sequents;
use compare::services::{check, print, Answers};
use compare::table::{Node, Table};
use std::collections::BTreeSet;
use std::sync::OnceLock;

/// The number of the refusal, 0 if there is none.
fn reply(table: &[u8]) -> i32 {
    check(table).map_or_else(|refusal| refusal.number, |_| 0)
}

#[test]
fn the_family_shows_every_case() {
    assert_eq!(missing(&family()), []);
}

/// The cases that are asked for, by hand: 22 operators, 3 of them over one operand and 12 over two.
#[test]
fn cases_are_counted() {
    let wanted = wanted();
    let count = |is: fn(&Case) -> bool| wanted.iter().filter(|&case| is(case)).count();
    // 20 takes integers or booleans.
    assert_eq!(count(|case| matches!(case, Case::Takes { .. })), 22 + 1);
    // Two wrong sorts of one operand; of nine sorts of two operands one is right, for 20 two.
    let misfits = 3 * 2 + 12 * 8 - 1;
    assert_eq!(count(|case| matches!(case, Case::Misfit { .. })), misfits);
    // Nine sorts of row; 2 and 3 make integers and booleans.
    assert_eq!(count(|case| matches!(case, Case::Root { .. })), 9 * 24);
    assert_eq!(count(|case| matches!(case, Case::Divides { .. })), 15);
    assert_eq!(count(|case| matches!(case, Case::Unused { .. })), 22);
    assert_eq!(count(|case| matches!(case, Case::Twice { .. })), 3 + 24);
    assert_eq!(count(|case| matches!(case, Case::Hidden { .. })), 2 * 27);
    assert_eq!(count(|case| matches!(case, Case::Unknown { .. })), 49 - 22);
    // 17 sides of integers take 6 operators with operands, in 51 and the variant too if an integer is made; 2 of booleans take
    // 1; 10 of predicates take 8. Leaves in witnesses alone: 3, 4 and 2 of them; 2 and 3 stand below 20 with both sorts.
    let inner = (17 * 6 + 2 + 10 * 8) * 7 + 11 * 6 * 2;
    let leaves = 17 * 3 + 2 * 4 + 10 * 2 - 2 * 2;
    let below = inner + leaves;
    assert_eq!(count(|case| matches!(case, Case::Below { .. })), below);
    // All 22 stand in 52 and witnesses, all but 3 in the five other rows of predicates and booleans, 8 in the two of integers;
    // without ÷ and mod two fewer in each of nine rows.
    let defined = 2 * 22 + 5 * 21 + 2 * 8;
    assert_eq!(count(|case| matches!(case, Case::Defined { .. })), defined);
    let left_out = defined - 9 * 2;
    assert_eq!(count(|case| matches!(case, Case::LeftOut { .. })), left_out);
}

#[test]
fn each_operator_is_in_an_accepted_table() {
    let accepted: Vec<Vec<u8>> = family()
        .into_iter()
        .filter(|table| check(table).is_ok())
        .collect();
    for operator in OPERATORS {
        assert!(accepted.iter().any(|table| has(table, operator)));
    }
    let others = operator_numbers().filter(|operator| !OPERATORS.contains(operator));
    for operator in others {
        assert!(!accepted.iter().any(|table| has(table, operator)));
    }
}

/// Without an operator's tables, or without one part of the family, something is missing.
#[test]
fn a_smaller_family_lacks_cases() {
    for operator in [LITERAL, AFTER, BOOL, MOD, NEGATION, EQUIVALENT] {
        let mut tables = [root_tables(), nested_tables()].concat();
        tables.retain(|table| !has(table, operator));
        let names_it =
            |case: &Case| matches!(case, Case::Takes { operator: o, .. } if *o == operator);
        assert!(missing(&tables).iter().any(names_it), "{operator}");
    }
    let parts = PARTS.map(|part| shown(&part()));
    for left_out in 0..parts.len() {
        let others = parts.iter().enumerate().filter(|one| one.0 != left_out);
        let cases: BTreeSet<Case> = others.flat_map(|(_, part)| part).cloned().collect();
        assert!(!cases.is_superset(&wanted()), "part {left_out}");
    }
}

/// Nothing but what is tried is wrong, so that no other refusal hides the reply; 0 is an accepted table.
#[test]
fn parts_are_answered_as_they_are_meant() {
    let meant: [&[i32]; 9] = [
        &[0, 7, 8, 9, 10],
        &[0, 7, 8, 10],
        &[10],
        &[9],
        &[0, 8, 10],
        &[0, 8],
        &[0, 8],
        &[0],
        &[0],
    ];
    for (part, meant) in PARTS.iter().zip(meant) {
        let tables = part();
        let replies: BTreeSet<i32> = tables.iter().map(|table| reply(table)).collect();
        assert!(replies.iter().eq(meant), "{replies:?}, not {meant:?}");
    }
}

/// Calls are made for every sequent and entry of lists that have at most 64.
#[test]
fn lists_are_short() {
    for table in family() {
        if let Ok(table) = accept(&table) {
            let list = sequents(&table);
            assert!(list.len() <= 64);
            assert!(list.iter().all(|sequent| sequent.entries().len() <= 64));
        }
    }
}

/// Whether ÷ or mod is among the nodes below this one, by the rows alone.
fn divides(rows: &[Row], number: i32) -> bool {
    let mut nodes = rows.iter().filter(|row| row.tag == 20);
    let node = nodes.nth(number as usize - 1).expect("a node");
    match node.a {
        13 | 14 => true,
        6 | 15 | 32 => divides(rows, node.b),
        10..=12 | 20..=22 | 33..=36 => divides(rows, node.b) || divides(rows, node.c),
        _ => false,
    }
}

/// WD of a formula is in the list just if it divides, whatever its row.
#[test]
fn wd_is_made_for_divisions_alone() {
    let (mut made, mut left_out) = (0, 0);
    for table in family() {
        let Ok(read) = accept(&table) else {
            continue;
        };
        let list = sequents(&read);
        for formula in &read.formulas {
            let listed = list
                .iter()
                .any(|one| one.kind == 1 && one.item == formula.root);
            assert_eq!(listed, divides(&read.rows, formula.root));
            made += usize::from(listed);
            left_out += usize::from(!listed);
        }
    }
    assert!(made > 1000 && left_out > 1000, "{made} {left_out}");
}

/// The list of operators and the checks, which were written apart, agree.
#[test]
fn operators_are_the_checks_own() {
    let listed: BTreeSet<i32> = SHAPES.iter().map(|shape| shape.operator).collect();
    assert_eq!(listed, BTreeSet::from(OPERATORS));
    for operator in operator_numbers() {
        assert_eq!(columns(operator).is_some(), listed.contains(&operator));
    }
    let read = Table::new(common::rows("10 1 1 0; 10 1 2 0"));
    for shape in &SHAPES {
        let operands = match columns(shape.operator) {
            Some(Columns::OneOperand) => 1,
            Some(Columns::TwoOperands) => 2,
            _ => 0,
        };
        assert_eq!(shape.takes.len(), operands);
        let node = Node {
            row: 3,
            operator: shape.operator,
            b: 1 + i32::from(shape.makes == Boolean),
            c: 0,
        };
        assert_eq!(sort(&read, node), shape.makes);
    }
}

/// The table of an axiom with these nodes, the last its root: constants 1 (an integer) and 2, concrete variables 3 and 4.
/// Node n is row n + 4.
fn axiom(nodes: &str) -> Vec<u8> {
    let root = common::rows(nodes).len();
    table(&format!(
        "10 1 1 0; 10 1 2 0; 10 3 1 0; 10 3 2 0; {nodes}; 20 1 0 0; 20 4 0 0; 30 {root} 0 0;
        40 1 0 0; 40 2 0 0; 51 2 3 {}; 51 2 4 {}",
        root + 1,
        root + 2
    ))
}

/// The family is sorted.
fn is_member(table: &Vec<u8>) -> bool {
    static FAMILY: OnceLock<Vec<Vec<u8>>> = OnceLock::new();
    FAMILY.get_or_init(family).binary_search(table).is_ok()
}

/// What check answers for an axiom of the family with these nodes.
fn answer(nodes: &str) -> Result<usize, (i32, usize)> {
    let table = axiom(nodes);
    assert!(is_member(&table), "{nodes}");
    check(&table).map_err(|refusal| (refusal.number, refusal.row))
}

#[test]
fn sorts_are_the_papers() {
    // 2 + 7, where 2 is a boolean: at the row of plus.
    assert_eq!(answer("20 2 2 0; 20 1 7 0; 20 10 1 2"), Err((8, 7)));
    // Two integers make an integer, and an axiom is a predicate: at its row.
    assert_eq!(answer("20 2 1 0; 20 1 7 0; 20 10 1 2"), Err((8, 10)));
    // bool of an integer, of a boolean, and of a predicate, which makes no predicate.
    assert_eq!(answer("20 2 1 0; 20 6 1 0"), Err((8, 6)));
    assert_eq!(answer("20 2 2 0; 20 6 1 0"), Err((8, 6)));
    assert_eq!(answer("20 30 0 0; 20 6 1 0"), Err((8, 9)));
    // = of a boolean and an integer, of an integer and a boolean, of two predicates.
    assert_eq!(answer("20 2 2 0; 20 1 7 0; 20 20 1 2"), Err((8, 7)));
    assert_eq!(answer("20 2 1 0; 20 5 0 0; 20 20 1 2"), Err((8, 7)));
    assert_eq!(answer("20 30 0 0; 20 31 0 0; 20 20 1 2"), Err((8, 7)));
    // = of two integers and of two booleans: nothing divides, so that no WD is made, nor any other sequent.
    assert_eq!(answer("20 2 1 0; 20 1 7 0; 20 20 1 2"), Ok(0));
    assert_eq!(answer("20 2 2 0; 20 5 0 0; 20 20 1 2"), Ok(0));
    // < takes no booleans, ∧ no booleans either, ¬ no integer.
    assert_eq!(answer("20 2 2 0; 20 5 0 0; 20 21 1 2"), Err((8, 7)));
    assert_eq!(answer("20 2 2 0; 20 5 0 0; 20 33 1 2"), Err((8, 7)));
    assert_eq!(answer("20 2 1 0; 20 32 1 0"), Err((8, 6)));
    assert_eq!(answer("20 30 0 0; 20 31 0 0; 20 36 1 2"), Ok(0));
    // TRUE is an expression, ⊤ a predicate.
    assert_eq!(answer("20 4 0 0"), Err((8, 8)));
    assert_eq!(answer("20 30 0 0"), Ok(0));
    // An after value in an axiom: a boolean isn't a predicate; below = it may not be mentioned.
    assert_eq!(answer("20 3 4 0"), Err((8, 8)));
    let hidden = "20 3 4 0; 20 5 0 0; 20 20 1 2";
    assert_eq!(answer(hidden), Err((10, 10)));
}

/// Two divisions, as the leaves of the family's formulas: 1 ÷ 3 as nodes 1 to 3, 5 mod 1 as nodes 4 to 6.
const DIVISIONS: &str = "20 2 1 0; 20 1 3 0; 20 13 1 2; 20 1 5 0; 20 2 1 0; 20 14 4 5";

/// Their well-definedness: WD(a) and WD(b) are ⊤; the divisor isn't 0, and 0 ≤ 5 and 0 < 1.
const QUOTIENT: &str = "33 33 30 30 32 20 1:3 1:0";
const REMAINDER: &str = "33 33 30 30 33 22 1:0 1:5 21 1:0 2:1";

/// Rows 83 from words: an operator, or an operator and b.
fn rows_83(words: &str) -> Vec<Row> {
    let number = |text: &str| text.parse().expect("a number");
    let row = |word: &str| match word.split_once(':') {
        Some((operator, b)) => Row::new(83, number(operator), number(b), 0),
        None => Row::new(83, number(word), 0, 0),
    };
    words.split_whitespace().map(row).collect()
}

/// Asks that the well-definedness of the family's axiom with these nodes, the goal of sequent 1, is spelled so.
fn assert_defined(nodes: &str, words: &str) {
    let table = axiom(nodes);
    assert!(is_member(&table), "{nodes}");
    assert_eq!(check(&table), Ok(1), "{nodes}");
    let spelled = Answers::of(&table).entry(1, 1);
    assert_eq!(spelled.expect("accepted"), rows_83(words), "{nodes}");
}

/// P is 1 ÷ 3 < 5 mod 1, Q is 2 ≤ 5 mod 1.
#[test]
fn well_definedness_of_predicates() {
    let p = "21 13 2:1 1:3 14 1:5 2:1";
    let wd_p = format!("33 {QUOTIENT} {REMAINDER}");
    let wd_q = format!("33 30 {REMAINDER}");
    let nodes = |operator: i32| {
        let q = "20 1 2 0; 20 1 5 0; 20 2 1 0; 20 14 9 10; 20 22 8 11";
        format!("{DIVISIONS}; 20 21 3 6; {q}; 20 {operator} 7 12")
    };
    assert_defined(&nodes(33), &format!("33 {wd_p} 35 {p} {wd_q}"));
    assert_defined(&nodes(35), &format!("33 {wd_p} 35 {p} {wd_q}"));
    assert_defined(&nodes(34), &format!("33 {wd_p} 34 {p} {wd_q}"));
    assert_defined(&nodes(36), &format!("33 {wd_p} {wd_q}"));
    // ¬P; and bool(P) = TRUE.
    assert_defined(&format!("{DIVISIONS}; 20 21 3 6; 20 32 7 0"), &wd_p);
    let equation = format!("{DIVISIONS}; 20 21 3 6; 20 6 7 0; 20 4 0 0; 20 20 8 9");
    assert_defined(&equation, &format!("33 {wd_p} 30"));
}

/// The integer under test is at most 1.
#[test]
fn well_definedness_of_integers() {
    let at_most_1 = |inner: &str| format!("33 {inner} 30");
    // −(1 ÷ 3 + 5 mod 1), and the same with minus and times.
    for operator in [10, 11, 12] {
        let nodes = format!("{DIVISIONS}; 20 {operator} 3 6; 20 15 7 0; 20 1 1 0; 20 22 8 9");
        let both = format!("33 {QUOTIENT} {REMAINDER}");
        assert_defined(&nodes, &at_most_1(&both));
    }
    // (1 ÷ 3) ÷ ((1 ÷ 3) mod (5 mod 1)), and mod for the first of these: the divisor of ÷ and both operands of mod are
    // spelled as written. The first ÷ is nodes 1 to 3.
    let inner = "20 2 1 0; 20 1 3 0; 20 13 4 5; 20 1 5 0; 20 2 1 0; 20 14 7 8; 20 14 6 9";
    let quotient = "20 2 1 0; 20 1 3 0; 20 13 1 2";
    let (dividend, divisor) = ("13 2:1 1:3", "14 13 2:1 1:3 14 1:5 2:1");
    let wd_inner = format!("33 33 {QUOTIENT} {REMAINDER} 33 22 1:0 {dividend} 21 1:0 14 1:5 2:1");
    for (operator, condition) in [
        (13, format!("32 20 {divisor} 1:0")),
        (14, format!("33 22 1:0 {dividend} 21 1:0 {divisor}")),
    ] {
        let nodes = format!("{quotient}; {inner}; 20 {operator} 3 10; 20 1 1 0; 20 22 11 12");
        let outer = format!("33 33 {QUOTIENT} {wd_inner} {condition}");
        assert_defined(&nodes, &at_most_1(&outer));
    }
}

/// A concrete invariant that says P: WD of it and INV, whose goal has after values; WD of two initial actions is left out.
#[test]
fn after_values_of_an_invariant() {
    let nodes =
        "20 2 3 0; 20 1 3 0; 20 13 1 2; 20 1 5 0; 20 2 3 0; 20 14 4 5; 20 21 3 6; 20 32 7 0";
    let text = format!(
        "10 1 1 0; 10 1 2 0; 10 3 1 0; 10 3 2 0; {nodes}; 20 1 0 0; 20 4 0 0;
        32 8 0 0; 40 1 0 0; 40 2 0 0; 51 2 3 9; 51 2 4 10"
    );
    let table = table(&text);
    assert!(is_member(&table));
    let printed = "80 1 0 8; 84 1 3 3; 82 3 8 0;
        80 2 2 8; 84 1 3 3; 81 4 2 3; 81 4 2 4; 82 2 8 0";
    assert_eq!(print(&table), common::table(printed));
    let goal = Answers::of(&table).entry(2, 3).expect("accepted");
    assert_eq!(goal, rows_83("32 21 13 3:3 1:3 14 1:5 3:3"));
}

/// Cases are read from a table's rows and its reply.
#[test]
fn shown_cases_are_read_from_tables() {
    let small = [axiom("20 2 1 0; 20 1 7 0; 20 20 1 2")];
    let cases = shown(&small);
    let sorts = vec![Integer, Integer];
    let operator = EQUAL;
    assert!(cases.contains(&Case::Takes { operator, sorts }));
    let (form, row) = (3, (30, Predicate));
    assert!(cases.contains(&Case::LeftOut { operator, row }));
    assert!(!cases.contains(&Case::Spelled { operator, form }));
    assert!(!cases.contains(&Case::Divides { operator }));
    let divided = [axiom("20 2 1 0; 20 1 7 0; 20 13 1 2; 20 1 0 0; 20 20 3 4")];
    let cases = shown(&divided);
    assert!(cases.contains(&Case::Defined { operator, row }));
    assert!(cases.contains(&Case::Spelled { operator, form }));
    assert!(!cases.contains(&Case::LeftOut { operator, row }));
    let wrong = [axiom("20 2 2 0; 20 1 7 0; 20 20 1 2")];
    let sorts = vec![Boolean, Integer];
    let misfit = Case::Misfit { operator, sorts };
    assert_eq!(shown(&wrong), BTreeSet::from([misfit]));
}
