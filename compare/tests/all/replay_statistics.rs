//! Generated logs give every answer, by every cause and often, and their formulas meet what request 5 tells apart.

use crate::common::remainders::assert_remainders;
use crate::common::two_faults::assert_two_faults;
use compare::checks::accept;
use compare::formula::*;
use compare::replay::term::Fault;
use compare::replay::{replay, Role};
use compare::runs::batch::Batch;
use compare::runs::family::{deep_family, family};
use compare::statistics::replays::Replays;
use compare::statistics::terms::{Class, Side, HIGHEST, LOWEST};
use std::sync::LazyLock;

const STRICT: [i32; 8] = [PLUS, MINUS, TIMES, DIVIDE, MOD, EQUAL, LESS, AT_MOST];
const CONNECTIVES: [i32; 4] = [AND, OR, IMPLIES, EQUIVALENT];
const ROLES: [Role; 4] = [Role::Axiom, Role::Guard, Role::Equal, Role::SuchThat];
const FAULTS: [Fault; 2] = [Fault::Outside, Fault::Undefined];

/// How many of 20,000 logs have each answer, at least.
const ANSWERS: [(&str, usize); 37] = [
    (" 0 no step", 1000),
    (" 0 one step", 1000),
    (" 0 several steps", 1000),
    (" 0 tens of steps", 200),
    (" 0 hundreds of steps", 80),
    ("16 Axiom Outside", 100),
    ("16 Guard Outside", 100),
    ("16 Equal Outside, first", 100),
    ("16 Equal Outside, later", 100),
    ("16 SuchThat Outside, first", 100),
    ("16 SuchThat Outside, later", 100),
    ("17 Axiom Undefined", 100),
    ("17 Guard Undefined", 100),
    ("17 Equal Undefined, first", 100),
    ("17 Equal Undefined, later", 100),
    ("17 SuchThat Undefined, first", 100),
    ("17 SuchThat Undefined, later", 100),
    ("18 Axiom False", 200),
    ("18 Guard False", 200),
    ("18 Equal False, first", 100),
    ("18 Equal False, later", 100),
    ("18 SuchThat False, first", 200),
    ("18 SuchThat False, later", 150),
    ("18 Kept", 200),
    ("18 Boolean", 200),
    ("18 Identifier", 400),
    ("18 Empty", 200),
    ("18 Ended", 400),
    ("18 TornBetween", 400),
    ("18 TornInside", 400),
    ("18 Event, first", 100),
    ("18 Event, later", 400),
    ("18 Form, first", 40),
    ("18 Form, later", 200),
    ("18 Tag, first", 80),
    ("18 Tag, later", 400),
    ("18 Unused, first", 30),
];

/// How many of 800 tables have this, at least.
const TABLES: [(&str, usize); 12] = [
    ("no constants", 80),
    ("constants", 400),
    ("no concrete or shared variables", 40),
    ("concrete variables", 400),
    ("shared variables", 200),
    ("no parameters", 100),
    ("parameters", 300),
    ("an event with and one without parameters", 100),
    ("kinds out of order", 200),
    ("convergent events", 150),
    ("anticipated events", 150),
    ("axioms", 300),
];

/// The 20,000 logs of the gate.
static GATE: LazyLock<Replays> = LazyLock::new(|| Replays::of(0, 800));

#[test]
fn every_answer_occurs_often() {
    let replays = &*GATE;
    assert_eq!(replays.pairs, 20_000);
    for (word, floor) in ANSWERS {
        let count = replays.answers.get(word).copied().unwrap_or(0);
        assert!(count >= floor, "{word}: {count}");
    }
    for (word, floor) in TABLES {
        let count = replays.tables.get(word).copied().unwrap_or(0);
        assert!(count >= floor, "{word}: {count}");
    }
    let refused = replays
        .answers
        .iter()
        .filter(|one| one.0.starts_with("table"));
    let refused: Vec<usize> = refused.map(|one| *one.1).collect();
    assert_eq!(refused.len(), 12, "{refused:?}");
    assert!(refused.iter().sum::<usize>() >= 500, "{refused:?}");
    // No answer is left out of the list above but one, and refused tables.
    let others = replays.answers.len() - refused.len() - ANSWERS.len();
    assert_eq!(others, 1, "{:?}", replays.answers);
}

/// What generated formulas meet in the steps that they stop.
#[test]
fn operators_meet_faults_on_either_side() {
    let terms = &GATE.terms;
    let met = |operator: i32, left: &[Class], right: &[Class]| -> usize {
        let pairs = terms
            .pairs
            .iter()
            .filter(|((one, a, b), _)| *one == operator && left.contains(a) && right.contains(b));
        pairs.map(|one| one.1).sum()
    };
    let values = [Class::Zero, Class::Other, Class::Lowest, Class::Highest];
    let faults = [Class::Outside, Class::Undefined];
    for operator in STRICT {
        for fault in faults {
            assert!(
                met(operator, &[fault], &values) >= 20,
                "{operator} {fault:?} left"
            );
            assert!(
                met(operator, &values, &[fault]) >= 20,
                "{operator} {fault:?} right"
            );
        }
        assert!(met(operator, &faults, &faults) >= 10, "{operator}: both");
    }
    for operator in [DIVIDE, MOD] {
        assert!(
            met(operator, &values, &[Class::Zero]) >= 100,
            "{operator} by 0"
        );
    }
}

#[test]
fn remainders_decide() {
    assert_remainders(&GATE.remainders);
}

#[test]
fn the_order_of_two_faults_decides() {
    assert_two_faults(&GATE.two_faults);
}

#[test]
fn operators_reach_the_ends_of_64_bits_and_pass_them_by_one() {
    for (operator, exact) in [
        (PLUS, HIGHEST),
        (PLUS, HIGHEST + 1),
        (PLUS, LOWEST),
        (PLUS, LOWEST - 1),
        (MINUS, HIGHEST),
        (MINUS, LOWEST),
        (MINUS, LOWEST - 1),
        (TIMES, HIGHEST),
        (TIMES, HIGHEST + 1),
        (TIMES, LOWEST),
        (DIVIDE, HIGHEST + 1),
        (NEGATION, HIGHEST + 1),
    ] {
        let count = GATE.terms.ends.get(&(operator, exact));
        assert!(count >= Some(&5), "{operator} gives {exact}: {count:?}");
    }
}

#[test]
fn connectives_meet_faults() {
    for role in [Role::Axiom, Role::Guard, Role::SuchThat] {
        for operator in CONNECTIVES {
            for fault in FAULTS {
                let sides = [Side::Left, Side::Right];
                let one = |side| GATE.terms.connected.get(&(role, operator, side, fault));
                let count: usize = sides.into_iter().filter_map(one).sum();
                assert!(count >= 5, "{role:?} {operator} {fault:?}: {count}");
            }
        }
    }
}

#[test]
fn the_deepest_formulas_are_accepted_and_read() {
    let batches = deep_family();
    assert_eq!(batches.len(), 13 * 6 + 6);
    for Batch { table, logs } in batches {
        let read = accept(&table).expect("accepted");
        assert!(read.nodes.len() >= 490, "{}", read.nodes.len());
        let answer = replay(&table, &logs[0]);
        // Some divide by 0 in the end, some leave 64 bits, most are true.
        let stopped = answer.err().map(|refusal| refusal.number);
        assert!(matches!(stopped, None | Some(16..=18)), "{stopped:?}");
    }
}

/// The family has all that random formulas may miss.
#[test]
fn the_family_meets_everything_in_every_formula() {
    let mut replays = Replays::default();
    for batch in family() {
        replays.add(&batch);
    }
    let classes = [
        Class::Zero,
        Class::Lowest,
        Class::Highest,
        Class::Other,
        Class::Outside,
        Class::Undefined,
    ];
    let terms = &replays.terms;
    for operator in [PLUS, MINUS, TIMES, DIVIDE, MOD] {
        for left in classes {
            for right in classes {
                // Steps that are allowed aren't counted, but some formula forbids one for each pair.
                assert!(
                    terms.pairs.contains_key(&(operator, left, right)),
                    "{operator} {left:?} {right:?}"
                );
            }
        }
    }
    for role in ROLES {
        for operator in CONNECTIVES {
            for side in [Side::Left, Side::Right] {
                for fault in FAULTS {
                    let one = (role, operator, side, fault);
                    assert!(terms.connected.contains_key(&one), "{one:?}");
                }
            }
        }
    }
    for word in ANSWERS.iter().map(|one| one.0) {
        let formula = word.starts_with("16") || word.starts_with("17");
        assert!(!formula || replays.answers[word] >= 90, "{word}");
    }
}
