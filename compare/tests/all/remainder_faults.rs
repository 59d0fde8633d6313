//! A mistake in what request 7 says of well-definedness, row 84 or values shows on the first generated tables.

use crate::common::definedness::{self, Misdefined, Rule, QUOTIENT, REMAINDER};
use crate::common::plain_values::{any_values, value, Mistake};
use crate::common::rules::{self, Count, Rules};
use compare::against::{Comparison, Effort, Services};
use compare::checks::accept;
use compare::evaluate::{evaluate, Reading, Value};
use compare::formula::Symbol;
use compare::generate;
use compare::generate::random::Random;
use compare::plain;
use compare::sequents::{spell_out, Entry};
use compare::table::Table;

/// A mistake is found on the tables of so many seeds, the first ones of the gate.
const FEW: u64 = 100;

/// Other well-definedness of mod, or of ÷.
const WRONG: [(&str, i32, Rule); 14] = [
    ("mod is as it was", 14, QUOTIENT),
    ("a divisor 0", 14, "33 33 wa wb 33 22 0 a 22 0 b"),
    ("a divisor below 0", 14, "33 33 wa wb 33 22 0 a 32 20 b 0"),
    ("a dividend below 0", 14, "33 33 wa wb 21 0 b"),
    ("no dividend 0", 14, "33 33 wa wb 33 21 0 a 21 0 b"),
    ("any divisor", 14, "33 33 wa wb 22 0 a"),
    ("÷ like mod", 13, REMAINDER),
    ("÷ with 0 < b", 13, "33 33 wa wb 21 0 b"),
    ("the divisor first", 14, "33 33 wa wb 33 21 0 b 22 0 a"),
    ("the condition first", 14, "33 33 22 0 a 21 0 b 33 wa wb"),
    ("operands exchanged", 14, "33 33 wa wb 33 22 0 b 21 0 a"),
    ("∧ to the left", 14, "33 33 33 wa wb 22 0 a 21 0 b"),
    ("∧ to the right", 14, "33 wa 33 wb 33 22 0 a 21 0 b"),
    ("no WD of the dividend", 14, "33 wb 33 22 0 a 21 0 b"),
];

/// Whether the table of a seed shows a difference.
fn shows(services: &dyn Services, seed: u64) -> bool {
    let table = generate::table(seed);
    let comparison = Comparison::new(services, &table);
    let comparison = comparison.run(Effort::Some, &mut Random::new(seed));
    comparison.difference.is_some()
}

/// The first seed whose table shows a difference.
fn first_seed(services: &dyn Services) -> Option<u64> {
    (0..FEW).find(|&seed| shows(services, seed))
}

#[test]
fn a_wrong_condition_of_mod_is_found() {
    assert_eq!(first_seed(&definedness::RIGHT), None);
    for (what, operator, rule) in WRONG {
        let found = first_seed(&Misdefined { operator, rule });
        println!("{what}: seed {found:?}");
        assert!(found.is_some(), "{what}");
    }
}

#[test]
fn many_tables_show_it() {
    let services = Misdefined {
        operator: 14,
        rule: QUOTIENT,
    };
    let shown = (0..1000).filter(|&seed| shows(&services, seed)).count();
    assert!(shown >= 60, "{shown}");
}

/// Row 84 of WD as if one operator had another condition.
fn counted_by(operator: i32, rule: Rule, table: &Table, goal: Entry) -> [i32; 3] {
    if goal.form != 3 {
        return plain::counted(table, goal);
    }
    let spelled = Misdefined { operator, rule }.spelled(table, goal.first);
    let named = |one: &Symbol| (one.operator == 2 || one.operator == 3).then_some(one.b);
    let mut names: Vec<i32> = spelled.iter().filter_map(named).collect();
    names.sort();
    names.dedup();
    let end = |name: Option<&i32>| name.copied().unwrap_or(0);
    [names.len() as i32, end(names.first()), end(names.last())]
}

/// Mistakes in row 84.
const COUNTS: [(&str, Count); 3] = [
    ("dividends of mod aren't counted", |table, goal| {
        counted_by(14, QUOTIENT, table, goal)
    }),
    ("divisors of mod aren't counted", |table, goal| {
        counted_by(14, "33 33 wa wb 22 0 a", table, goal)
    }),
    ("dividends of ÷ are counted", |table, goal| {
        counted_by(13, REMAINDER, table, goal)
    }),
];

#[test]
fn a_wrong_row_84_is_found() {
    let right: Count = |table, goal| counted_by(0, "", table, goal);
    let with = |counts| Rules {
        counts,
        ..rules::RIGHT
    };
    assert_eq!(first_seed(&with(right)), None);
    for (what, counts) in COUNTS {
        let found = first_seed(&with(counts));
        println!("{what}: seed {found:?}");
        assert!(found.is_some(), "{what}");
    }
}

/// The first seed with a formula that has another value in a sequent than this program says.
fn first_value(mistake: Mistake) -> Option<u64> {
    (0..FEW).find(|&seed| {
        let Ok(table) = accept(&generate::table(seed)) else {
            return false;
        };
        let mut random = Random::new(seed);
        let values = [(); 4].map(|()| any_values(&mut random, &table));
        let mut formulas = table.formulas.iter();
        formulas.any(|formula| {
            let entry = Entry {
                form: 1,
                first: formula.root,
                second: 0,
            };
            let spelled = spell_out(&table, entry);
            values.iter().any(|values| {
                let read = evaluate(&spelled, &table, values, Reading::Sequent).ok();
                let number = read.map(|read| match read {
                    Value::Integer(integer) => integer,
                    Value::Truth(truth) => i128::from(truth),
                });
                number != value(mistake, &table, formula.root, values)
            })
        })
    })
}

#[test]
fn a_wrong_value_in_sequents_is_found() {
    assert_eq!(first_value(Mistake::None), None);
    for mistake in [
        Mistake::OldRemainder,
        Mistake::NegativeDividend,
        Mistake::NegativeDivisor,
        Mistake::ZeroDivisor,
        Mistake::UndefinedIsDividend,
        Mistake::QuotientAsRemainder,
    ] {
        let found = first_value(mistake);
        println!("{mistake:?}: seed {found:?}");
        assert!(found.is_some(), "{mistake:?}");
    }
}
