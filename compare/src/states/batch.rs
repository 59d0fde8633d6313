//! Tables with many presses each, from a number.

use super::damage::{Subject, LISTS, ROWS};
use super::maker::{Maker, WANTED};
use super::tables::{full, pressed};
use super::values::second_list;
use crate::checks::accept;
use crate::generate::accepted_draft;
use crate::generate::random::Random;
use crate::press::{Panel, Record};
use crate::rows::bytes_of;
use crate::runs::batch::{model, refused_in_turn};
use crate::table::Table;

/// A step to press and to preview.
#[derive(Clone, Debug, PartialEq, Eq)]
pub struct Case {
    /// The records before it; nothing stands for those that the press before it has left.
    pub state: Option<Vec<Record>>,
    /// What the second list of the preview holds before.
    pub second: Vec<Record>,
    pub step: Vec<u8>,
}

/// A table and presses for it.
#[derive(Clone, Debug)]
pub struct Batch {
    pub table: Vec<u8>,
    pub cases: Vec<Case>,
}

/// The presses of a batch.
pub const CASES: usize = 25;

/// Those one after another on one list, and those that are searched for; all others are damaged.
const CHAINED: usize = 6;
const SEARCHED: usize = 10;

/// The batch of this number: of forty, two have a table that may be refused, one a model, three any accepted table, the others
/// one that is made to be pressed, one of them with as many identifiers as can be.
pub fn batch(number: u64) -> Batch {
    let mut random = Random::new(number ^ 0x9E55_0F10);
    let table = match number % 40 {
        0 | 1 => refused_in_turn(number),
        2 => model(&mut random),
        3..=5 => bytes_of(&accepted_draft(&mut random).rows(&mut random)),
        6 => bytes_of(&full(&mut random).rows(&mut random)),
        _ => bytes_of(&pressed(&mut random).rows(&mut random)),
    };
    batch_of(table, &mut random)
}

/// The table with presses for it; one that is refused has those of another table.
pub fn batch_of(table: Vec<u8>, random: &mut Random) -> Batch {
    let read = accept(&table).or_else(|_| accept(&bytes_of(&pressed(random).rows(random))));
    let read = read.expect("tables made to be pressed are accepted");
    let cases = cases_of(&read, random);
    Batch { table, cases }
}

/// As many presses as a batch has.
fn cases_of(table: &Table, random: &mut Random) -> Vec<Case> {
    let panel = Panel::of(table);
    let mut maker = Maker::new(table, &panel);
    let start = match maker.initial(random) {
        Some((_, state)) if !random.one_in(4) => state,
        _ => maker.any_state(random),
    };
    let mut cases = Vec::new();
    let reached = chain(&mut maker, start, &mut cases, random);
    for _ in 0..SEARCHED {
        let wanted = random.pick(&WANTED);
        let (state, step) = maker.searched(&reached, wanted, random);
        cases.push(Case {
            state: Some(state),
            second: second_list(table, random),
            step,
        });
    }
    while cases.len() < CASES {
        cases.extend(damaged(&mut maker, &reached, random));
    }
    cases
}

/// Adds presses one after another from this list on; one in eight may not be performed. Gives the list that they leave.
fn chain(
    maker: &mut Maker,
    start: Vec<Record>,
    cases: &mut Vec<Case>,
    random: &mut Random,
) -> Vec<Record> {
    let mut now = start.clone();
    for place in 0..CHAINED {
        let step = match random.one_in(8) {
            true => maker.step(&now, false, random),
            false => maker.performed(&now, random),
        };
        if let Ok(after) = maker.panel.after(&step, &now) {
            now = after;
        }
        cases.push(Case {
            state: (place == 0).then(|| start.clone()),
            second: second_list(maker.table, random),
            step,
        });
    }
    now
}

/// A damaged press: half of them would be performed without the damage; one in ten has two damages.
fn damaged(maker: &mut Maker, reached: &[Record], random: &mut Random) -> Option<Case> {
    let (state, step) = match random.one_in(2) {
        true => (reached.to_vec(), maker.performed(reached, random)),
        false => {
            let wanted = random.pick(&WANTED);
            maker.searched(reached, wanted, random)
        }
    };
    let mut case = Case {
        state: Some(state),
        second: second_list(maker.table, random),
        step,
    };
    let several = 1 + usize::from(random.one_in(10));
    for _ in 0..several {
        let damage = match random.below(5) {
            0 | 1 => random.pick(&LISTS),
            _ => random.pick(&ROWS),
        };
        let subject = Subject {
            table: maker.table,
            panel: maker.panel,
            state: case.state.as_ref()?,
            second: &case.second,
            step: &case.step,
        };
        case = subject.damaged(damage, random)?;
    }
    Some(case)
}
