//! What must hold of every generated table.

use crate::common::plain_values::any_values;
use compare::checks::accept;
use compare::evaluate::{evaluate, NoValue, Reading, Value, Values};
use compare::generate::random::Random;
use compare::generate::sections::{COMBINATIONS, TAGS};
use compare::generate::{accepted_draft, case, ROUND};
use compare::rows::{bytes_of, ROW_BYTES};
use compare::sequents::{sequents, spell_out, Entry, INV, WD};
use compare::services::{check, print, spell_entry, write_sequent};
use compare::statistics::{refusals_of, Statistics};
use compare::table::Table;
use std::collections::BTreeSet;
use std::sync::OnceLock;

#[test]
fn cases_are_the_same_each_time() {
    for seed in 0..ROUND {
        let (one, other) = (case(seed), case(seed));
        assert_eq!(one.table, other.table);
        assert_eq!((one.k, one.j), (other.k, other.j));
        assert_eq!(one.sequent_room, other.sequent_room);
        assert_eq!(one.entry_room, other.entry_room);
    }
}

#[test]
fn every_round_meets_every_refusal() {
    for round in 0..10 {
        let seeds = round * ROUND..(round + 1) * ROUND;
        let met: BTreeSet<i32> = seeds.flat_map(|seed| refusals_of(&case(seed))).collect();
        assert_eq!(met, (1..=15).collect(), "round {round}");
    }
}

#[test]
fn all_kinds_forms_and_operators_occur() {
    let statistics = Statistics::of(0, 300);
    assert!((1..=8).all(|kind| statistics.kinds.contains_key(&kind)));
    assert!((1..=10).all(|form| statistics.goal_forms.contains_key(&form)));
    assert!((0..=3).all(|class| statistics.shared_sim.contains_key(&class)));
    let operators = [1..=6, 10..=15, 20..=22, 30..=36, 40..=41];
    for operator in operators.into_iter().flatten() {
        assert!(statistics.operators.contains_key(&operator), "{operator}");
    }
}

/// The statistics of many seeds, made once.
fn of_many() -> &'static Statistics {
    static MANY: OnceLock<Statistics> = OnceLock::new();
    MANY.get_or_init(|| Statistics::of(0, 6000))
}

/// Rows stand in every way that matters to a program that goes by sections, and tables are near the refusals.
#[test]
fn shapes_occur_in_numbers() {
    let statistics = of_many();
    assert!(3 * statistics.accepted >= statistics.cases);
    assert!(3 * statistics.empty.len() >= 2 * COMBINATIONS);
    let count = |word: &str| statistics.shapes.get(word).copied().unwrap_or(0);
    for tag in TAGS.into_iter().filter(|&tag| tag != 40) {
        assert!(
            count(&format!("accepted, section {tag}: empty")) > 5,
            "{tag}"
        );
        assert!(
            count(&format!("accepted, section {tag}: one row")) > 5,
            "{tag}"
        );
    }
    for tag in TAGS.into_iter().filter(|&tag| tag != 70) {
        let limit = format!("accepted, section {tag}: at its limit");
        assert!(count(&limit) > 20, "{tag}");
        let later = format!("refused after 4, section {tag}: at its limit");
        assert!(count(&later) > 3, "{tag}");
    }
    for tag in TAGS {
        let above = format!("refused by 4, section {tag}: one above the limit");
        assert!(count(&above) > 0, "{tag}");
    }
    for (word, least) in SHAPES.iter().chain(ANTICIPATED).chain(SHARED) {
        assert!(count(word) >= *least, "{word}: {}", count(word));
    }
}

/// Tables have ÷ and mod in every place, and invariants and goals of every sort that request 4 tells apart.
#[test]
fn what_is_left_out_occurs_in_numbers() {
    let statistics = of_many();
    let asked = |word: String, least: usize| {
        let found = statistics.shapes.get(&format!("accepted, {word}"));
        let found = found.copied().unwrap_or(0);
        assert!(found >= least, "{word}: {found}");
    };
    for place in ["30", "31", "32", "70"].iter().chain(OF_EVENTS) {
        asked(format!("no division in {place}"), 200);
        asked(format!("÷ alone in {place}"), 30);
        asked(format!("mod alone in {place}"), 30);
        asked(format!("÷ and mod in {place}"), 5);
        if *place != "70" {
            asked(format!("division under bool alone in {place}"), 20);
            asked(format!("division never read in {place}"), 6);
        }
    }
    for group in ["guards", "actions", "witnesses", "axioms and invariants"] {
        asked(
            format!("division in some {group} of one event, not in others"),
            150,
        );
    }
    for (place, words) in INV_PLACES {
        for word in words.iter() {
            asked(format!("INV at {place}: {word}"), 8);
        }
    }
    for (word, least) in GOALS {
        let found = statistics.goals.get(word).copied().unwrap_or(0);
        assert!(found >= *least, "{word}: {found}");
    }
    for kind in [WD, INV] {
        assert!(statistics.kinds[&kind] > 2000, "{kind}");
        assert!(statistics.left_out[&kind] > 2000, "{kind}");
    }
    assert_eq!(statistics.left_out.len(), 2);
}

/// WD depends on the dividend of mod, in row 84 too, and ÷ and mod stand below each other on either side.
#[test]
fn remainders_occur_in_numbers() {
    for (word, least) in DEFINED {
        let found = of_many().defined.get(word).copied().unwrap_or(0);
        assert!(found >= *least, "{word}: {found}");
    }
}

/// WD goals by what mod adds to them, and how many there must be.
const DEFINED: &[(&str, usize)] = &[
    ("mod", 4000),
    ("an identifier by a dividend alone", 2000),
    ("all identifiers by dividends alone", 500),
    ("the lowest identifier by a dividend alone", 1000),
    ("the highest identifier by a dividend alone", 1000),
    ("one between by a dividend alone", 60),
    ("mod below the dividend of mod", 200),
    ("mod below the divisor of mod", 200),
    ("÷ below the dividend of mod", 150),
    ("÷ below the divisor of mod", 150),
    ("mod below the dividend of ÷", 150),
    ("mod below the divisor of ÷", 150),
];

/// Places of formulas of events.
const OF_EVENTS: &[&str] = &[
    "abstract 50",
    "concrete 50",
    "abstract 51",
    "abstract 51, initial",
    "concrete 51",
    "concrete 51, initial",
    "abstract 52",
    "abstract 52, initial",
    "concrete 52",
    "concrete 52, initial",
    "parameter witness",
    "variable witness",
    "variable witness, initial",
];

/// What invariants mention, by the event of INV. Initialisations set all that is their machine's.
const INV_PLACES: [(&str, &[&str]); 6] = [
    (
        "the abstract initialisation",
        &[
            "no variable",
            "a variable that is set",
            "shared variables alone",
        ],
    ),
    (
        "the concrete initialisation",
        &[
            "no variable",
            "a variable that is set",
            "no variable that is set",
            "one that is set, one that isn't",
            "shared variables alone",
            "abstract variables alone",
        ],
    ),
    ("an abstract event", OTHERS),
    ("a refining event", OTHERS),
    ("a convergent event", OTHERS),
    ("an anticipated event", OTHERS),
];

const OTHERS: &[&str] = &[
    "no variable",
    "a variable that is set",
    "no variable that is set",
    "variables, and no action at all",
    "one that is set, one that isn't",
    "shared variables alone",
    "abstract variables alone",
    "set by x := x alone",
];

/// Goals by what they mention, and how many there must be.
const GOALS: &[(&str, usize)] = &[
    ("no identifier", 1000),
    ("identifier 64 alone", 500),
    ("identifiers 1 and 64", 100),
    ("the bound identifier in 40 or 41 alone", 1000),
    ("present and after value of one identifier", 1000),
    ("WD with fewer identifiers than its formula", 1000),
    ("INV of an event that may lack it", 1000),
];

/// And how many there must be.
const SHAPES: &[(&str, usize)] = &[
    ("accepted, 51 and 52 of one event apart", 100),
    ("accepted, actions of events interleaved", 100),
    (
        "accepted, all actions but initial ones of the last event",
        10,
    ),
    ("accepted, all actions of the last event", 10),
    ("accepted, an event without actions", 100),
    ("accepted, guards interleaved", 100),
    ("accepted, witnesses interleaved", 100),
    ("accepted, one section at its limit, five or more empty", 50),
    ("accepted, one target of two events", 100),
    ("accepted, the last row's root is node 1", 10),
    ("refused by 3: known tags fall once", 30),
    (
        "refused by 4, section 52 with rows 51: one above the limit",
        2,
    ),
    ("refused by 9: no use", 20),
    ("refused by 9: two uses", 10),
    (
        "refused by 9: more than one use, the last in the last row",
        2,
    ),
    ("refused by 9: the last node", 2),
    ("refused by 11: 51 and 51", 5),
    ("refused by 11: 51 and 51, far apart", 2),
    ("refused by 11: 51 and 52", 5),
    ("refused by 11: 51 and 52, far apart", 2),
    ("refused by 11: 52 and 52", 5),
    ("refused by 11: 60 and 60", 5),
    ("refused by 11: 60 and 60, far apart", 2),
    ("refused by 12, alone: abstract initialisation", 2),
    ("refused by 12, alone: concrete initialisation", 2),
    ("refused by 12, alone: abstract initial action", 2),
    ("refused by 12, alone: concrete initial action", 2),
    ("refused by 12, alone: variable witness, initial", 2),
    ("refused by 12, alone: variable witness, ordinary", 1),
    ("refused by 12, alone: parameter witness", 1),
    ("refused by 12, alone: variant", 2),
    ("refused by 12, alone: new event", 1),
];

/// The same of tables in which class 3 matters.
const ANTICIPATED: &[(&str, usize)] = &[
    ("accepted, class 3: with class 2 and a variant", 160),
    ("accepted, class 3: alone, with a variant", 120),
    ("accepted, class 3: alone, without a variant", 160),
    ("accepted, class 3: before an ordinary event", 200),
    ("accepted, class 3: after an ordinary event", 200),
    ("accepted, class 3: before a convergent event", 120),
    ("accepted, class 3: after a convergent event", 120),
    ("accepted, class 3: owner of a parameter", 200),
    ("accepted, class 3: with a guard", 200),
    ("accepted, class 3: with an action 51", 160),
    ("accepted, class 3: with an action 52", 160),
    ("accepted, class 3: without guards and actions", 200),
    ("accepted, class 3: INV under many abstract variables", 80),
    ("refused by 5: class 3, abstract", 4),
    ("refused by 5: class 3 with a refined event", 10),
    ("refused by 5: class 4", 2),
    ("refused by 6: class 3 owns an abstract parameter", 12),
    ("refused by 7: witness at class 3", 10),
    ("refused by 7: action at class 3", 4),
    ("refused by 11: action at class 3", 2),
    ("refused by 12, alone: variant, with class 3", 2),
    ("refused by 12, alone: new event, with ordinary ones", 4),
];

/// The same of tables in which kind 6 matters.
const SHARED: &[(&str, usize)] = &[
    ("accepted, variables without kind 6", 400),
    ("accepted, kind 6: any", 400),
    ("accepted, kind 6: beside kinds 2 and 3", 80),
    ("accepted, kind 6: beside kind 2 alone", 80),
    ("accepted, kind 6: beside kind 3 alone", 60),
    ("accepted, kind 6: without other variables", 160),
    ("accepted, kind 6: mixed with kind 2 by number", 80),
    ("accepted, kind 6: mixed with kind 3 by number", 60),
    ("accepted, kind 6: integer", 300),
    ("accepted, kind 6: boolean", 240),
    ("accepted, kind 6: 64 of them", 6),
    ("accepted, kind 6: set by initialisations alone", 120),
    ("accepted, kind 6: set by an event, abstract, 51", 100),
    ("accepted, kind 6: set by an event, abstract, 52", 100),
    ("accepted, kind 6: set by an event, ordinary, 51", 100),
    ("accepted, kind 6: set by an event, ordinary, 52", 100),
    ("accepted, kind 6: set by an event, convergent, 51", 60),
    ("accepted, kind 6: set by an event, convergent, 52", 60),
    ("accepted, kind 6: set by an event, anticipated, 51", 80),
    ("accepted, kind 6: set by an event, anticipated, 52", 80),
    ("accepted, kind 6: present value in 31", 80),
    ("accepted, kind 6: present value in 32", 60),
    ("accepted, kind 6: present value in 70", 80),
    ("accepted, kind 6: present value in abstract 50", 40),
    ("accepted, kind 6: present value in concrete 50", 80),
    ("accepted, kind 6: present value in abstract 51", 80),
    ("accepted, kind 6: present value in concrete 51", 100),
    ("accepted, kind 6: present value in abstract 52", 20),
    ("accepted, kind 6: present value in concrete 52", 40),
    ("accepted, kind 6: present value in parameter witness", 40),
    ("accepted, kind 6: present value in variable witness", 40),
    ("accepted, kind 6: after value in abstract 52", 4),
    ("accepted, kind 6: after value in concrete 52", 12),
    ("accepted, kind 6: after value in abstract 52, initial", 40),
    ("accepted, kind 6: after value in concrete 52, initial", 40),
    ("accepted, kind 6: after value in variable witness", 40),
    (
        "accepted, kind 6: after value in variable witness, initial",
        20,
    ),
    ("refused by 6: kind 0", 2),
    ("refused by 6: kind 7", 2),
    ("refused by 6: kind 6 with an owner", 6),
    ("refused by 6: kind 6, type", 2),
    ("refused by 7: witness for kind 6", 12),
    ("refused by 10: present value of kind 6 in 30", 2),
    (
        "refused by 10: present value of kind 6 in abstract 51, initial",
        1,
    ),
    (
        "refused by 10: present value of kind 6 in concrete 52, initial",
        1,
    ),
    (
        "refused by 10: present value of kind 6 in variable witness, initial",
        2,
    ),
    ("refused by 10: after value of kind 6 in 30", 1),
    ("refused by 10: after value of kind 6 in 31", 1),
    ("refused by 10: after value of kind 6 in 32", 1),
    ("refused by 10: after value of kind 6 in 70", 1),
    ("refused by 10: after value of kind 6 in abstract 50", 1),
    ("refused by 10: after value of kind 6 in concrete 51", 1),
    ("refused by 11: action for kind 6", 20),
    ("refused by 12, alone: abstract initial action, kind 6", 4),
    ("refused by 12, alone: concrete initial action, kind 6", 4),
    ("refused by 12, alone: both initial actions, kind 6", 2),
];

#[test]
fn drafts_are_accepted() {
    for seed in 0..500 {
        let mut random = Random::new(seed);
        let draft = accepted_draft(&mut random);
        let rows = draft.rows(&mut random);
        let answer = check(&bytes_of(&rows));
        assert!(answer.is_ok(), "seed {seed}: {answer:?}");
    }
}

/// No sequent is listed twice, and none without its row 80.
#[test]
fn sequents_have_different_names() {
    for seed in 27..50 {
        let Ok(table) = accept(&case(seed).table) else {
            panic!("seed {seed} is refused");
        };
        let list = sequents(&table);
        let names: BTreeSet<_> = list
            .iter()
            .map(|one| (one.kind, one.event, one.item))
            .collect();
        assert_eq!(names.len(), list.len());
    }
}

/// Refusals change no byte, replies only their rows, and all services agree.
#[test]
fn buffers_are_kept() {
    for seed in 0..400 {
        let case = case(seed);
        let mut out = vec![0xA5; case.sequent_room];
        let rows = write_sequent(&case.table, case.k, &mut out).unwrap_or(0);
        assert!(out[rows * ROW_BYTES..].iter().all(|&byte| byte == 0xA5));
        let mut out = vec![0xA5; case.entry_room];
        let rows = spell_entry(&case.table, case.k, case.j, &mut out).unwrap_or(0);
        assert!(out[rows * ROW_BYTES..].iter().all(|&byte| byte == 0xA5));
        let printed = print(&case.table);
        match check(&case.table) {
            Ok(count) => {
                let headers = printed
                    .chunks(ROW_BYTES)
                    .filter(|row| row.starts_with(b"  80"));
                assert_eq!(headers.count(), count);
            }
            Err(_) => assert!(printed.len() == ROW_BYTES && printed.starts_with(b"  89")),
        }
    }
}

/// WD is true just where a run reads no undefined term, and there both readings agree.
/// Gives whether the formula is defined, or nothing if an integer gets too large.
fn is_defined(table: &Table, root: i32, values: &Values) -> Option<bool> {
    let spelled = |form| {
        let entry = Entry {
            form,
            first: root,
            second: 0,
        };
        spell_out(table, entry)
    };
    let run = evaluate(&spelled(1), table, values, Reading::Run);
    let lemma = evaluate(&spelled(3), table, values, Reading::Sequent);
    if run == Err(NoValue::TooLarge) || lemma == Err(NoValue::TooLarge) {
        return None;
    }
    let defined = run != Err(NoValue::Undefined);
    assert_eq!(lemma, Ok(Value::Truth(defined)));
    if defined {
        let sequent = evaluate(&spelled(1), table, values, Reading::Sequent);
        assert_eq!(run, sequent);
    }
    Some(defined)
}

#[test]
fn well_definedness_is_what_a_run_needs() {
    let (mut defined, mut undefined) = (0, 0);
    for seed in 0..600 {
        let mut random = Random::new(seed);
        let draft = accepted_draft(&mut random);
        let table = Table::new(draft.rows(&mut random));
        for _ in 0..4 {
            let values = any_values(&mut random, &table);
            for formula in table.formulas.iter() {
                match is_defined(&table, formula.root, &values) {
                    Some(true) => defined += 1,
                    Some(false) => undefined += 1,
                    None => {}
                }
            }
        }
    }
    assert!(defined > 1000 && undefined > 1000, "{defined} {undefined}");
}
