//! What the presses of many batches give, and what those that are performed do.

use super::count;
use super::remainders::{has_mod, Met, Remainders, Seen};
use super::replays::accepted;
use super::terms::formulas;
use super::two_faults::TwoFaults;
use crate::press::{Cause, Panel, Record};
use crate::replay::machine::Change;
use crate::replay::{self, NOT_A_RUN};
use crate::shrink::rows_of;
use crate::states::batch::{batch, Batch, Case};
use crate::table::*;
use std::collections::BTreeMap;

/// Counts over many batches.
#[derive(Clone, Debug, Default)]
pub struct Presses {
    pub presses: usize,
    /// Presses by words for what they give.
    pub answers: BTreeMap<String, usize>,
    /// Performed presses by words for what they do.
    pub performed: BTreeMap<&'static str, usize>,
    /// Previews that are refused for the second list alone.
    pub second: usize,
    /// Accepted tables by words for what they have.
    pub tables: BTreeMap<&'static str, usize>,
    pub remainders: Remainders,
    pub two_faults: TwoFaults,
}

impl Presses {
    /// Counts the batches from `first`, so many of them.
    pub fn of(first: u64, batches: u64) -> Presses {
        let mut presses = Presses::default();
        for number in first..first + batches {
            presses.add(&batch(number));
        }
        presses
    }

    pub fn add(&mut self, Batch { table, cases }: &Batch) {
        self.presses += cases.len();
        let read = accepted(table, cases.len(), &mut self.tables, &mut self.answers);
        if let Some(table) = read {
            self.add_cases(&table, cases);
        }
    }

    fn add_cases(&mut self, table: &Table, cases: &[Case]) {
        let panel = Panel::of(table);
        let mut now = Vec::new();
        for case in cases {
            if let Some(state) = &case.state {
                now = state.clone();
            }
            let before = now.clone();
            let answer = panel.press(&case.step, &mut now);
            self.add_formulas(table, &panel, case, &before);
            let mut second = case.second.clone();
            let previewed = panel.preview(&case.step, &before, &mut second);
            self.second += usize::from(number(answer) != number(previewed));
            let word = match answer {
                Ok(()) => {
                    self.add_performed(&panel, case, &before, &now);
                    " 0 performed".to_string()
                }
                Err(cause) => format!("{} {}", cause.number(), words(table, cause, &before)),
            };
            count(&mut self.answers, word);
        }
    }

    /// Counts what mod and the order of faults have to do with the press's answer.
    fn add_formulas(&mut self, table: &Table, panel: &Panel, case: &Case, before: &[Record]) {
        let Ok((step, state)) = panel.begin(&case.step, before) else {
            return;
        };
        let seen = Seen {
            table,
            machine: &panel.machine,
            state: &state,
        };
        let all = [panel.axioms(), &formulas(step)].concat();
        match panel.after(&case.step, before).map_err(Cause::number) {
            Ok(_) if has_mod(table) => {
                let mut met = Met::new();
                seen.meet_all(&all, &mut met);
                self.remainders.add_accepted(&met);
            }
            Ok(_) | Err(NOT_A_RUN) => {}
            Err(_) => {
                self.two_faults.add(&seen, &all);
                self.remainders.add_stopped(&seen, &all);
            }
        }
    }

    fn add_performed(&mut self, panel: &Panel, case: &Case, before: &[Record], after: &[Record]) {
        let event = rows_of(&case.step).map_or(0, |rows| rows[0].a);
        let Some(step) = panel.event(event) else {
            return;
        };
        let changed = step
            .variables
            .iter()
            .filter(|one| before[one.0] != after[one.0]);
        let changed: Vec<(usize, Change)> = changed.copied().collect();
        let all = |fits: fn(&Change) -> bool| step.variables.iter().any(|one| fits(&one.1));
        let wide = |one: &(usize, Change)| i32::try_from(after[one.0].value).is_err();
        let words = [
            ("the list that was left before", case.state.is_none()),
            ("nothing changed", changed.is_empty()),
            ("several variables changed", changed.len() > 1),
            ("a value that no row can hold", changed.iter().any(wide)),
            ("parameters", !step.inputs().is_empty()),
            ("51 actions", all(|one| matches!(one, Change::Equal(_)))),
            ("52 actions", all(|one| matches!(one, Change::SuchThat(_)))),
            ("variables that are kept", all(|one| *one == Change::Kept)),
            ("axioms", !panel.axioms().is_empty()),
            ("guards", !step.conditions.is_empty()),
            (
                "as many records as can be",
                before.len() == Table::MOST_IDENTIFIERS,
            ),
        ];
        for (word, _) in words.iter().filter(|one| one.1) {
            count(&mut self.performed, *word);
        }
    }

    /// How many answers begin with this word.
    pub fn beginning(&self, word: &str) -> usize {
        let answers = self.answers.iter().filter(|one| one.0.starts_with(word));
        answers.map(|one| one.1).sum()
    }

    /// The counts as lines of text.
    pub fn report(&self) -> String {
        let mut text = format!("{} presses\n", self.presses);
        for (word, count) in &self.answers {
            text += &format!("{word}: {count}\n");
        }
        for (word, count) in &self.performed {
            text += &format!("performed with {word}: {count}\n");
        }
        text += &format!(
            "previews refused for the second list alone: {}\n",
            self.second
        );
        for (word, count) in &self.tables {
            text += &format!("accepted tables with {word}: {count}\n");
        }
        text + &self.remainders.report() + &self.two_faults.report()
    }
}

/// 0, or the number of the refusal.
fn number(answer: Result<(), Cause>) -> i32 {
    answer.map_or_else(Cause::number, |()| 0)
}

/// The cause in words, with the kind of a record that is at fault.
fn words(table: &Table, cause: Cause, list: &[Record]) -> String {
    let kind = |fits: fn(&Record, i32) -> bool| {
        let mut pairs = list.iter().zip(&table.identifiers);
        let found = pairs.find(|(record, one)| !fits(record, one.type_number));
        found.map_or(0, |(_, one)| one.kind)
    };
    let fits_type = |record: &Record, type_number: i32| record.type_number == type_number as u64;
    match cause {
        Cause::Length | Cause::SecondLength => format!("list {cause:?}"),
        Cause::Type => format!("list {cause:?}, kind {}", kind(fits_type)),
        Cause::Boolean => {
            let fits = |record: &Record, type_number: i32| {
                type_number != BOOLEAN || (0..=1).contains(&record.value)
            };
            format!("list {cause:?}, kind {}", kind(fits))
        }
        Cause::More => "rows More".to_string(),
        Cause::Step(replay::Cause::Formula(role, verdict)) => format!("{role:?} {verdict:?}"),
        Cause::Step(cause) => format!("rows {cause:?}"),
    }
}
