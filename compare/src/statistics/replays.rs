//! What the batches of many numbers contain, and what their logs give.

use super::count;
use super::remainders::{has_mod, Met, Remainders, Seen};
use super::terms::{formulas, Terms};
use super::two_faults::TwoFaults;
use crate::checks::{accept, Refusal};
use crate::replay::log::Log;
use crate::replay::machine::Machine;
use crate::replay::term::State;
use crate::replay::{Cause, Role, NOT_A_RUN};
use crate::runs::batch::{batch, Batch};
use crate::table::*;
use std::collections::BTreeMap;

/// Counts over many batches.
#[derive(Clone, Debug, Default)]
pub struct Replays {
    pub pairs: usize,
    /// Logs by words for what they give.
    pub answers: BTreeMap<String, usize>,
    /// Accepted tables by words for what they have.
    pub tables: BTreeMap<&'static str, usize>,
    /// What was met in the steps that a formula stops.
    pub terms: Terms,
    pub remainders: Remainders,
    pub two_faults: TwoFaults,
}

impl Replays {
    /// Counts the batches from `first`, so many of them.
    pub fn of(first: u64, batches: u64) -> Replays {
        let mut replays = Replays::default();
        for number in first..first + batches {
            replays.add(&batch(number));
        }
        replays
    }

    pub fn add(&mut self, Batch { table, logs }: &Batch) {
        self.pairs += logs.len();
        let read = accepted(table, logs.len(), &mut self.tables, &mut self.answers);
        if let Some(table) = read {
            self.add_logs(&table, logs);
        }
    }

    fn add_logs(&mut self, table: &Table, logs: &[Vec<u8>]) {
        let machine = Machine::of(table);
        for log in logs {
            let answer = machine.replay(log);
            let first = matches!(answer, Err(stop) if stop.row == 1);
            self.add_formulas(table, &machine, log);
            if let Err(Cause::Formula(..)) = answer.map_err(|stop| stop.cause) {
                self.terms.add(table, &machine, log);
            }
            let word = match answer {
                Ok(steps) => success(steps).to_string(),
                Err(stop) => format!("{} {}", stop.cause.number(), cause(stop.cause, first)),
            };
            count(&mut self.answers, word);
        }
    }

    /// Counts what mod and the order of faults have to do with the log's answer.
    fn add_formulas(&mut self, table: &Table, machine: &Machine, run: &[u8]) {
        let (mut log, mut state) = (Log::new(run), State::default());
        let (mut first, mut met) = (true, Met::new());
        while first || !log.is_at_end() {
            let Ok(step) = machine.read(&mut log, first, &mut state) else {
                return;
            };
            let seen = Seen {
                table,
                machine,
                state: &state,
            };
            match machine.judge(step, &state).map_err(Cause::number) {
                Ok(()) if has_mod(table) => seen.meet_all(&formulas(step), &mut met),
                Ok(()) => {}
                Err(NOT_A_RUN) => return,
                Err(_) => {
                    self.two_faults.add(&seen, &formulas(step));
                    return self.remainders.add_stopped(&seen, &formulas(step));
                }
            }
            step.settle(&mut state);
            first = false;
        }
        self.remainders.add_accepted(&met);
    }

    /// The counts as lines of text.
    pub fn report(&self) -> String {
        let mut text = format!("{} logs\n", self.pairs);
        for (word, count) in &self.answers {
            text += &format!("{word}: {count}\n");
        }
        for (word, count) in &self.tables {
            text += &format!("accepted tables with {word}: {count}\n");
        }
        text + &self.terms.report() + &self.remainders.report() + &self.two_faults.report()
    }
}

fn success(steps: u64) -> &'static str {
    match steps {
        0 => " 0 no step",
        1 => " 0 one step",
        2..=9 => " 0 several steps",
        10..=99 => " 0 tens of steps",
        _ => " 0 hundreds of steps",
    }
}

/// The cause in words, with the step for formulas that both the first and later ones read.
fn cause(cause: Cause, first: bool) -> String {
    let step = if first { "first" } else { "later" };
    match cause {
        Cause::Formula(role @ (Role::Equal | Role::SuchThat), verdict) => {
            format!("{role:?} {verdict:?}, {step}")
        }
        Cause::Formula(role, verdict) => format!("{role:?} {verdict:?}"),
        Cause::Form | Cause::Tag | Cause::Unused | Cause::Event => format!("{cause:?}, {step}"),
        _ => format!("{cause:?}"),
    }
}

/// The table, if it is accepted, with what it has counted; else its refusal is counted for each of so many calls.
pub fn accepted(
    bytes: &[u8],
    calls: usize,
    tables: &mut BTreeMap<&'static str, usize>,
    answers: &mut BTreeMap<String, usize>,
) -> Option<Table> {
    match accept(bytes) {
        Ok(table) => {
            for word in features(&table) {
                count(tables, word);
            }
            Some(table)
        }
        Err(Refusal { number, .. }) => {
            let word = format!("table {number:>2}");
            *answers.entry(word).or_default() += calls;
            None
        }
    }
}

/// What a table has that a log depends on.
fn features(table: &Table) -> Vec<&'static str> {
    let kind = |kind| table.identifiers.iter().filter(move |one| one.kind == kind);
    let none = |wanted| kind(wanted).next().is_none();
    let class = |class| table.events.iter().any(|event| event.class == class);
    let logged = |one: &&Identifier| !matches!(one.kind, ABSTRACT_VARIABLE | ABSTRACT_PARAMETER);
    let kinds: Vec<i32> = table
        .identifiers
        .iter()
        .filter(logged)
        .map(|one| one.kind)
        .collect();
    let all = [
        ("no constants", none(CONSTANT)),
        ("constants", !none(CONSTANT)),
        (
            "no concrete or shared variables",
            table.variables(CONCRETE).is_empty(),
        ),
        ("concrete variables", !none(CONCRETE_VARIABLE)),
        ("shared variables", !none(SHARED_VARIABLE)),
        ("no parameters", none(CONCRETE_PARAMETER)),
        ("parameters", !none(CONCRETE_PARAMETER)),
        (
            "an event with and one without parameters",
            mixed_parameters(table),
        ),
        ("kinds out of order", !kinds.is_sorted()),
        ("convergent events", class(CONVERGENT)),
        ("anticipated events", class(ANTICIPATED)),
        ("axioms", table.tagged(AXIOM).next().is_some()),
    ];
    let met = all.into_iter().filter(|one| one.1);
    met.map(|one| one.0).collect()
}

fn mixed_parameters(table: &Table) -> bool {
    let events = 1..=table.events.len() as i32;
    let later = events.filter(|&event| {
        let Event { machine, class, .. } = table.events[event as usize - 1];
        machine == CONCRETE && class != INITIALISATION
    });
    let owns = |event: i32| {
        let owner = |one: &Identifier| one.kind == CONCRETE_PARAMETER && one.owner == event;
        table.identifiers.iter().any(owner)
    };
    let owning: Vec<bool> = later.map(owns).collect();
    owning.contains(&true) && owning.contains(&false)
}
