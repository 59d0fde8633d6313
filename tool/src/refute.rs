//! Looks for values, among small ones, that make all hypotheses of a sequent true and its goal false.

use crate::evaluate::{evaluate, is_boolean, NoValue, Value, Values};
use crate::formula::{operator, Formula, Mention};
use crate::names::Names;
use crate::sequents::Spelled;
use crate::table::Table;
use std::cell::Cell;
use std::ops::RangeInclusive;

/// A hypothesis or the goal, with the truth that a counterexample gives it.
struct Demand<'a> {
    formula: &'a Formula,
    free: Vec<Mention>,
    truth: bool,
}

struct Search<'a> {
    table: &'a Table,
    demands: Vec<Demand<'a>>,
    integers: RangeInclusive<i128>,
    values: Values,
    /// How many more values may be tried.
    left: usize,
    /// Whether some demand had no value, so that it can't be said whether it is met.
    unsure: Cell<bool>,
}

/// The most values that are tried for a sequent.
const MOST_TRIED: usize = 1_000_000;

/// What a search has found.
#[derive(Debug, PartialEq, Eq)]
pub enum Found {
    Counterexample(Values),
    Nothing,
    /// There are too many values to try all of them, or some demand had no value.
    NotSearched,
}

/// Looks for values that refute the sequent, with integers in this range.
pub fn search(spelled: &Spelled, table: &Table, integers: RangeInclusive<i128>) -> Found {
    let hypotheses = spelled
        .hypotheses
        .iter()
        .map(|formula| demand(formula, true));
    let demands = hypotheses.chain([demand(&spelled.goal, false)]);
    let mut search = Search {
        table,
        demands: demands.collect(),
        integers,
        values: Values::new(),
        left: MOST_TRIED,
        unsure: Cell::new(false),
    };
    match search.all_met() {
        true => Found::Counterexample(search.values),
        false if search.left == 0 || search.unsure.get() => Found::NotSearched,
        false => Found::Nothing,
    }
}

fn demand(formula: &Formula, truth: bool) -> Demand<'_> {
    Demand {
        formula,
        free: formula.free(),
        truth,
    }
}

/// Whether the values make all hypotheses true and the goal false, as far as that can be said.
pub fn refutes(spelled: &Spelled, table: &Table, values: &Values) -> bool {
    let met = |formula: &Formula, truth: bool| match evaluate(formula, table, values) {
        Ok(value) => value == Value::Truth(truth),
        Err(NoValue::NotGiven) => false,
        // too large to say, or "some value" that wasn't found
        Err(_) => true,
    };
    spelled.hypotheses.iter().all(|formula| met(formula, true)) && met(&spelled.goal, false)
}

/// The values with their names, in the order of the identifiers' numbers: a line before the step, a line after it.
pub fn shown(values: &Values, table: &Table, names: &Names) -> String {
    let lines = [false, true].map(|after| {
        let wanted = values.iter().filter(|(mention, _)| mention.after == after);
        let wanted: Vec<String> = wanted.map(|one| shown_value(one, table, names)).collect();
        match wanted.is_empty() {
            true => String::new(),
            false => format!("           {}\n", wanted.join(", ")),
        }
    });
    lines.concat()
}

fn shown_value((mention, value): (&Mention, &Value), table: &Table, names: &Names) -> String {
    let name = names.identifier(mention.identifier, table);
    let prime = if mention.after { "'" } else { "" };
    format!("{name}{prime} = {}", value.shown())
}

impl Search<'_> {
    fn open<'a>(&'a self, demand: &'a Demand) -> impl Iterator<Item = &'a Mention> {
        demand
            .free
            .iter()
            .filter(|mention| !self.values.contains_key(mention))
    }

    /// Whether the values known so far can be completed. Takes the demand with the fewest open names next.
    fn all_met(&mut self) -> bool {
        let unsettled = self
            .demands
            .iter()
            .filter(|one| self.open(one).next().is_some());
        let Some(demand) = unsettled.min_by_key(|one| self.open(one).count()) else {
            return self.hold_so_far();
        };
        let mention = *self.open(demand).next().expect("an open name");
        for value in self.tried(demand, mention) {
            if self.left == 0 {
                break;
            }
            self.left -= 1;
            self.values.insert(mention, value);
            if self.hold_so_far() && self.all_met() {
                return true;
            }
        }
        self.values.remove(&mention);
        false
    }

    /// The values that are tried for a name: the one that an equation gives it, or all of the range.
    fn tried(&self, demand: &Demand, mention: Mention) -> Vec<Value> {
        if let Some(value) = self.defined_by(demand, mention) {
            return vec![value];
        }
        match is_boolean(self.table, mention) {
            true => vec![Value::Truth(false), Value::Truth(true)],
            false => {
                let integers = self.integers.clone().take(self.left);
                integers.map(Value::Integer).collect()
            }
        }
    }

    /// The value that an equation "name = known term" gives the name.
    fn defined_by(&self, demand: &Demand, mention: Mention) -> Option<Value> {
        let equation = demand.truth && demand.formula.operator == operator::EQUAL;
        if !equation || demand.formula.operands[0].mention() != Some(mention) {
            return None;
        }
        evaluate(&demand.formula.operands[1], self.table, &self.values).ok()
    }

    /// Whether no demand whose names are all known is broken.
    fn hold_so_far(&self) -> bool {
        let settled = |one: &&Demand| self.open(one).next().is_none();
        self.demands
            .iter()
            .filter(settled)
            .all(|one| self.is_met(one))
    }

    /// A demand without a value isn't met: nothing is a counterexample that may be none.
    fn is_met(&self, demand: &Demand) -> bool {
        let value = evaluate(demand.formula, self.table, &self.values);
        self.unsure.set(self.unsure.get() || value.is_err());
        value == Ok(Value::Truth(demand.truth))
    }
}
