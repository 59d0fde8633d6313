//! Generated presses give every answer, by every cause and often, and damage gives what it must.

use crate::common::remainders::assert_remainders;
use crate::common::two_faults::assert_two_faults;
use compare::checks::accept;
use compare::generate::random::Random;
use compare::press::{Cause, Panel, Record};
use compare::replay;
use compare::rows::{bytes_of, Row};
use compare::runs::damage as rows;
use compare::shrink::rows_of;
use compare::states::batch::{batch, CASES};
use compare::states::damage::{Damage, Subject, LISTS, ROWS};
use compare::states::maker::Maker;
use compare::states::tables::pressed;
use compare::states::values::second_list;
use compare::statistics::presses::Presses;
use compare::table::{Table, BOOLEAN};
use std::collections::{BTreeMap, BTreeSet};
use std::sync::LazyLock;

/// How many of 20,000 presses have each answer, at least.
const ANSWERS: [(&str, usize); 36] = [
    (" 0 performed", 5000),
    ("16 Axiom Outside", 100),
    ("16 Guard Outside", 200),
    ("16 Equal Outside", 200),
    ("16 SuchThat Outside", 200),
    ("17 Axiom Undefined", 50),
    ("17 Guard Undefined", 200),
    ("17 Equal Undefined", 200),
    ("17 SuchThat Undefined", 200),
    ("18 Axiom False", 300),
    ("18 Guard False", 400),
    ("18 SuchThat False", 300),
    ("18 list Length", 500),
    ("18 list Type, kind 1", 50),
    ("18 list Type, kind 2", 50),
    ("18 list Type, kind 3", 50),
    ("18 list Type, kind 4", 50),
    ("18 list Type, kind 5", 50),
    ("18 list Type, kind 6", 50),
    ("18 list Boolean, kind 1", 40),
    ("18 list Boolean, kind 2", 40),
    ("18 list Boolean, kind 3", 40),
    ("18 list Boolean, kind 4", 40),
    ("18 list Boolean, kind 5", 40),
    ("18 list Boolean, kind 6", 30),
    ("18 rows Empty", 100),
    ("18 rows Ended", 100),
    ("18 rows TornBetween", 50),
    ("18 rows TornInside", 50),
    ("18 rows Form", 150),
    ("18 rows Tag", 200),
    ("18 rows Unused", 100),
    ("18 rows Event", 400),
    ("18 rows Identifier", 200),
    ("18 rows Boolean", 80),
    ("18 rows More", 200),
];

/// How many of 20,000 presses there are of each sort, at least.
const SORTS: [(&str, usize); 6] = [
    ("table", 500),
    ("16", 1000),
    ("17", 1000),
    ("18 list", 1500),
    ("18 rows", 2500),
    ("18", 6000),
];

/// How many of those that are performed have this, at least.
const PERFORMED: [(&str, usize); 11] = [
    ("the list that was left before", 1500),
    ("nothing changed", 500),
    ("several variables changed", 800),
    ("a value that no row can hold", 150),
    ("parameters", 2000),
    ("51 actions", 2000),
    ("52 actions", 1500),
    ("variables that are kept", 2000),
    ("axioms", 2500),
    ("guards", 1000),
    ("as many records as can be", 60),
];

/// How many of 800 tables have this, at least.
const TABLES: [(&str, usize); 12] = [
    ("no constants", 80),
    ("constants", 400),
    ("no concrete or shared variables", 10),
    ("concrete variables", 500),
    ("shared variables", 250),
    ("no parameters", 80),
    ("parameters", 400),
    ("an event with and one without parameters", 200),
    ("kinds out of order", 300),
    ("convergent events", 200),
    ("anticipated events", 250),
    ("axioms", 400),
];

/// The 20,000 presses of the gate.
static GATE: LazyLock<Presses> = LazyLock::new(|| Presses::of(0, 800));

fn assert_often<'a>(wanted: &[(&str, usize)], count: impl Fn(&str) -> Option<&'a usize>) {
    for &(word, floor) in wanted {
        let count = count(word).copied().unwrap_or(0);
        assert!(count >= floor, "{word}: {count}");
    }
}

#[test]
fn every_answer_occurs_often() {
    let presses = &*GATE;
    assert_eq!(presses.presses, 20_000);
    assert_often(&ANSWERS, |word| presses.answers.get(word));
    for (word, floor) in SORTS {
        let count = presses.beginning(word);
        assert!(count >= floor, "{word}: {count}");
    }
    assert!(presses.second >= 200, "{}", presses.second);
    // No answer is left out of the list above but those of refused tables, each of which occurs.
    let tables = presses
        .answers
        .keys()
        .filter(|one| one.starts_with("table"));
    assert_eq!(tables.count(), 12);
    assert_eq!(
        presses.answers.len(),
        ANSWERS.len() + 12,
        "{:?}",
        presses.answers
    );
}

#[test]
fn what_is_performed_and_where_differs() {
    assert_often(&PERFORMED, |word| GATE.performed.get(word));
    assert_often(&TABLES, |word| GATE.tables.get(word));
}

#[test]
fn remainders_decide() {
    assert_remainders(&GATE.remainders);
}

#[test]
fn the_order_of_two_faults_decides() {
    assert_two_faults(&GATE.two_faults);
}

/// What lists have: lengths around the right one and around the limit, values and types at their ends.
#[test]
fn lists_have_many_lengths_values_and_types() {
    let (mut lengths, mut seconds) = (BTreeSet::new(), BTreeSet::new());
    let (mut values, mut types) = (BTreeSet::new(), BTreeSet::new());
    for number in 0..400 {
        let generated = batch(number);
        assert_eq!(generated.cases.len(), CASES);
        assert!(generated.cases[0].state.is_some());
        let Ok(read) = accept(&generated.table) else {
            continue;
        };
        let more = |list: &[Record]| list.len() as i64 - read.identifiers.len() as i64;
        for case in &generated.cases {
            let state = case.state.as_deref().unwrap_or_default();
            lengths.extend(
                case.state
                    .iter()
                    .flat_map(|list| [more(list), 1000 + list.len() as i64]),
            );
            seconds.extend([more(&case.second), 1000 + case.second.len() as i64]);
            values.extend(state.iter().map(|record| record.value));
            types.extend(state.iter().map(|record| record.type_number));
        }
    }
    for wanted in [-1, 0, 1, 2, 1000, 1064, 1065, 1066, 1200] {
        assert!(lengths.contains(&wanted), "{wanted}");
        assert!(seconds.contains(&wanted), "{wanted}");
    }
    let (lowest, highest) = (i64::MIN, i64::MAX);
    for wanted in [
        lowest,
        lowest + 1,
        -1,
        0,
        1,
        2,
        1 << 31,
        -(1 << 31) - 1,
        1 << 32,
        1 << 62,
    ] {
        assert!(values.contains(&wanted), "{wanted}");
    }
    assert!(values.contains(&highest) && values.contains(&(highest - 1)));
    for wanted in [0, 1, 2, 3, 1 << 63, u64::MAX] {
        assert!(types.contains(&wanted), "{wanted}");
    }
}

#[test]
fn a_number_has_one_batch() {
    assert_eq!(batch(11).cases, batch(11).cases);
    assert_ne!(batch(11).cases, batch(12).cases);
}

/// What the damage must give, where that is known.
fn fits(damage: Damage, cause: Result<(), Cause>) -> bool {
    match damage {
        Damage::Shorter | Damage::Longer | Damage::NoRecords | Damage::OtherLength => {
            cause == Err(Cause::Length)
        }
        Damage::OtherType => cause == Err(Cause::Type),
        Damage::NoBoolean => cause == Err(Cause::Boolean),
        Damage::Initialisation | Damage::Abstract => {
            cause == Err(Cause::Step(replay::Cause::Event))
        }
        Damage::Extra | Damage::AsLogged => {
            let row = Cause::Step(replay::Cause::Identifier);
            cause == Err(row) || cause == Err(Cause::More)
        }
        Damage::Long => cause == Err(Cause::More),
        // A row that is missing or exchanged can leave a whole step; the others may fit by chance.
        _ => true,
    }
}

#[test]
fn damage_gives_what_it_must() {
    let mut counts: BTreeMap<Damage, usize> = BTreeMap::new();
    for seed in 0..150 {
        let mut random = Random::new(seed);
        let rows = pressed(&mut random).rows(&mut random);
        let read = accept(&bytes_of(&rows)).expect("such tables are accepted");
        let panel = Panel::of(&read);
        let mut maker = Maker::new(&read, &panel);
        let state = maker.any_state(&mut random);
        let step = maker.step(&state, true, &mut random);
        let second = second_list(&read, &mut random);
        let subject = Subject {
            table: &read,
            panel: &panel,
            state: &state,
            second: &second,
            step: &step,
        };
        for damage in LISTS.into_iter().chain(ROWS) {
            let Some(case) = subject.damaged(damage, &mut random) else {
                continue;
            };
            let mut list = case.state.expect("always there");
            let answer = panel.press(&case.step, &mut list);
            assert!(fits(damage, answer), "seed {seed}, {damage:?}: {answer:?}");
            let is_second = case.second.len() != second.len();
            assert_eq!(is_second, damage == Damage::SecondLength, "seed {seed}");
            *counts.entry(damage).or_default() += 1;
        }
    }
    for damage in LISTS.into_iter().chain(ROWS) {
        let count = counts.get(&damage).copied().unwrap_or(0);
        assert!(count >= 30, "{damage:?}: {count}");
    }
}

/// Two damages of one row: a tag after tag 9999, a number after an end of 32 bits.
#[test]
fn batches_with_a_row_damaged_twice_are_made() {
    for number in [100_021_850, 5_946, 28_897] {
        assert_eq!(batch(number).cases.len(), CASES, "{number}");
    }
}

/// Damages that write another number.
const NUMBERS: [Damage; 6] = [
    Damage::Rows(rows::Damage::ByOne),
    Damage::Rows(rows::Damage::ToAnEnd),
    Damage::Rows(rows::Damage::OtherTag),
    Damage::Rows(rows::Damage::UnusedColumn),
    Damage::Rows(rows::Damage::OtherEvent),
    Damage::Rows(rows::Damage::OtherIdentifier),
];

/// A step of two such rows with each damage of rows, many times: none fails, and other numbers fit their columns.
fn assert_damaged(row: Row) {
    let mut random = Random::new(0);
    let rows = pressed(&mut random).rows(&mut random);
    let read = accept(&bytes_of(&rows)).expect("such tables are accepted");
    let subject = Subject {
        table: &read,
        panel: &Panel::of(&read),
        state: &[],
        second: &[],
        step: &bytes_of(&[row; 2]),
    };
    for damage in ROWS.into_iter().cycle().take(60 * ROWS.len()) {
        let case = subject.damaged(damage, &mut random);
        let in_form = case.is_none_or(|case| rows_of(&case.step).is_some());
        assert!(in_form || !NUMBERS.contains(&damage), "{row:?}, {damage:?}");
    }
}

#[test]
fn rows_at_the_ends_of_their_columns_are_damaged() {
    for tag in [-999, 1180, 1181, 9999] {
        for number in [i32::MIN, i32::MAX] {
            assert_damaged(Row::new(tag, number, number, number));
        }
    }
}

/// Reached lists have types and booleans that fit, whatever else they hold.
#[test]
fn states_that_are_made_fit_their_table() {
    let fits = |read: &Table, list: &[Record]| {
        let mut pairs = list.iter().zip(&read.identifiers);
        let fit = pairs.all(|(record, one)| {
            let boolean = one.type_number != BOOLEAN || (0..=1).contains(&record.value);
            record.type_number == one.type_number as u64 && boolean
        });
        list.len() == read.identifiers.len() && fit
    };
    for seed in 0..100 {
        let mut random = Random::new(seed);
        let rows = pressed(&mut random).rows(&mut random);
        let read = accept(&bytes_of(&rows)).expect("such tables are accepted");
        let panel = Panel::of(&read);
        let mut maker = Maker::new(&read, &panel);
        let reached = maker.initial(&mut random);
        assert!(reached.is_none_or(|(_, list)| fits(&read, &list)), "{seed}");
        assert!(fits(&read, &maker.any_state(&mut random)), "{seed}");
    }
}
