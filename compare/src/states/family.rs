//! Every operator over records at the ends of 64 bits, and all that replay's family has in places that a press reads.

use super::batch::{Batch, Case};
use super::reduced::reduced;
use crate::checks::accept;
use crate::formula::*;
use crate::generate::draft::{Draft, DraftFormula};
use crate::generate::random::Random;
use crate::generate::tree::Tree;
use crate::press::{Panel, Record};
use crate::rows::{bytes_of, Row};
use crate::runs::batch::Batch as Logs;
use crate::runs::family::{deep_pressed, pressed};
use crate::table::*;

/// Values of two constants.
const VALUES: [i64; 13] = [
    i64::MIN,
    i64::MIN + 1,
    -(1 << 62) - 1,
    -(1 << 62),
    -(1 << 31) - 1,
    -1,
    0,
    1,
    2,
    1 << 31,
    1 << 62,
    i64::MAX - 1,
    i64::MAX,
];

/// All families below.
pub fn whole_family() -> Vec<Batch> {
    [wide_family(), logged_family(), deep_family()].concat()
}

/// Every operator of integers over all pairs of these values: one table, each time with one event.
pub fn wide_family() -> Vec<Batch> {
    let operators = [
        PLUS, MINUS, TIMES, DIVIDE, MOD, NEGATION, EQUAL, LESS, AT_MOST,
    ];
    operators.into_iter().map(over_all_values).collect()
}

/// Two constants, an integer and a boolean variable: one of these becomes what the operator makes of the constants.
fn over_all_values(operator: i32) -> Batch {
    let leaf = |number| Tree::leaf(IDENTIFIER, number);
    let tree = match operator {
        NEGATION => Tree::one(NEGATION, leaf(1)),
        EQUAL..=AT_MOST => Tree::one(BOOL, Tree::two(operator, leaf(1), leaf(2))),
        _ => Tree::two(operator, leaf(1), leaf(2)),
    };
    let target = match operator {
        EQUAL..=AT_MOST => 4,
        _ => 3,
    };
    let formula = |event, identifier, tree| DraftFormula {
        tag: BECOMES_EQUAL,
        event,
        identifier,
        tree,
    };
    let draft = Draft {
        identifiers: vec![
            [CONSTANT, INTEGER, 0],
            [CONSTANT, INTEGER, 0],
            [CONCRETE_VARIABLE, INTEGER, 0],
            [CONCRETE_VARIABLE, BOOLEAN, 0],
        ],
        events: vec![
            [ABSTRACT, INITIALISATION, 0],
            [CONCRETE, INITIALISATION, 0],
            [CONCRETE, ANTICIPATED, 0],
        ],
        formulas: vec![
            formula(2, 3, Tree::leaf(LITERAL, 0)),
            formula(2, 4, Tree::leaf(FALSE, 0)),
            formula(3, target, tree),
        ],
    };
    let pairs = VALUES
        .into_iter()
        .flat_map(|a| VALUES.into_iter().map(move |b| [a, b, 7, 0]));
    Batch {
        table: bytes_of(&draft.rows(&mut Random::new(0))),
        cases: pairs.map(case).collect(),
    }
}

fn case(values: [i64; 4]) -> Case {
    let types = [INTEGER, INTEGER, INTEGER, BOOLEAN];
    let records = values.into_iter().zip(types);
    let records = records.map(|(value, type_number)| Record {
        value,
        type_number: type_number as u64,
    });
    Case {
        state: Some(records.collect()),
        second: vec![Record::default(); values.len()],
        step: bytes_of(&[Row::new(90, 3, 0, 0)]),
    }
}

/// The steps of replay's family, pressed from what its initialisations log.
pub fn logged_family() -> Vec<Batch> {
    reduced_all(pressed())
}

/// The deepest formulas, in the same way.
pub fn deep_family() -> Vec<Batch> {
    reduced_all(deep_pressed())
}

fn reduced_all(batches: Vec<Logs>) -> Vec<Batch> {
    let mut random = Random::new(0);
    let one = |Logs { table, logs }| {
        let read = accept(&table).expect("accepted");
        let panel = Panel::of(&read);
        let log = reduced(&read, &panel, &logs[0], &mut random).expect("an initialisation");
        let case = Case {
            second: vec![Record::default(); log.state.len()],
            state: Some(log.state),
            step: log.steps[0].step.clone(),
        };
        Batch {
            table,
            cases: vec![case],
        }
    };
    batches.into_iter().map(one).collect()
}
