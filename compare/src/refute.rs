//! Looks for values that make all hypotheses of a sequent true and its goal false, among small ones.

use crate::evaluate::{evaluate, NoValue, Reading, Value, Values};
use crate::formula::{Symbol, AFTER, EQUAL, IDENTIFIER};
use crate::sequents::{spell_out, Sequent};
use crate::table::{Table, INTEGER};
use std::collections::BTreeSet;
use std::ops::RangeInclusive;

/// An identifier's number less one, and whether its after value is meant.
pub type Name = (usize, bool);

/// A hypothesis or the goal, with the truth that a counterexample gives it.
struct Demand {
    spelled: Vec<Symbol>,
    names: Vec<Name>,
    truth: bool,
}

struct Search<'a> {
    table: &'a Table,
    demands: Vec<Demand>,
    integers: RangeInclusive<i128>,
    values: Values,
    known: Vec<Name>,
}

/// Values that refute the sequent, if there are any with integers in this range.
/// A goal "some value" counts as false only where no value of a wider range meets it.
pub fn counterexample(
    table: &Table,
    sequent: &Sequent,
    integers: RangeInclusive<i128>,
) -> Option<Vec<(Name, Value)>> {
    let mut demands: Vec<Demand> = Vec::new();
    for &entry in &sequent.hypotheses {
        demands.push(Demand::new(spell_out(table, entry), true));
    }
    demands.push(Demand::new(spell_out(table, sequent.goal), false));
    let blank = vec![Value::Integer(0); table.identifiers.len()];
    let mut search = Search {
        table,
        demands,
        integers,
        values: Values {
            now: blank.clone(),
            after: blank,
        },
        known: Vec::new(),
    };
    search.all_met().then(|| search.found())
}

/// How many identifiers and after values the sequent mentions that an equation among its hypotheses doesn't give.
pub fn free_names(table: &Table, sequent: &Sequent) -> usize {
    let entries = sequent.entries().into_iter();
    let demands: Vec<Demand> = entries
        .map(|entry| Demand::new(spell_out(table, entry), true))
        .collect();
    let names: BTreeSet<&Name> = demands.iter().flat_map(|one| &one.names).collect();
    let given = |name: &Name| {
        let gives = |one: &Demand| {
            one.spelled[0].operator == EQUAL && name_of(&one.spelled[1]) == Some(*name)
        };
        name.1 && demands.iter().any(gives)
    };
    names.into_iter().filter(|&&name| !given(&name)).count()
}

/// The values by identifier numbers, after values with a prime.
pub fn shown(values: &[(Name, Value)]) -> String {
    let mut text = String::new();
    for &((place, after), value) in values {
        let prime = if after { "'" } else { "" };
        let value = match value {
            Value::Integer(integer) => integer.to_string(),
            Value::Truth(truth) => truth.to_string().to_uppercase(),
        };
        text += &format!(" {}{prime} = {value}", place + 1);
    }
    text
}

impl Demand {
    /// "Some value of" binds its identifier, which is then none of the names.
    fn new(spelled: Vec<Symbol>, truth: bool) -> Demand {
        let bound = match spelled[0].operator {
            40 => Some((spelled[0].b as usize - 1, false)),
            41 => Some((spelled[0].b as usize - 1, true)),
            _ => None,
        };
        let mut names: Vec<Name> = spelled.iter().filter_map(name_of).collect();
        names.sort();
        names.dedup();
        names.retain(|&name| Some(name) != bound);
        Demand {
            spelled,
            names,
            truth,
        }
    }
}

/// The identifier or after value that a symbol mentions.
fn name_of(symbol: &Symbol) -> Option<Name> {
    match symbol.operator {
        IDENTIFIER => Some((symbol.b as usize - 1, false)),
        AFTER => Some((symbol.b as usize - 1, true)),
        _ => None,
    }
}

impl Search<'_> {
    /// Whether the values known so far can be completed. Takes the demand with the fewest open names next.
    fn all_met(&mut self) -> bool {
        let open = |demand: &Demand| {
            let names = demand.names.iter();
            names.filter(|name| !self.known.contains(name)).count()
        };
        let next = self.demands.iter().filter(|one| open(one) > 0);
        let Some(demand) = next.min_by_key(|one| open(one)) else {
            return self.holds_so_far();
        };
        let names = demand.names.iter();
        let Some(&name) = names.clone().find(|name| !self.known.contains(name)) else {
            return false;
        };
        let values = match self.defined_by(demand, name) {
            Some(value) => vec![value],
            None => self.values_of(name),
        };
        self.try_each(name, values)
    }

    fn try_each(&mut self, name: Name, values: Vec<Value>) -> bool {
        self.known.push(name);
        for value in values {
            self.set(name, value);
            if self.holds_so_far() && self.all_met() {
                return true;
            }
        }
        self.known.pop();
        false
    }

    /// The value that an equation "name = known term" gives the name.
    fn defined_by(&self, demand: &Demand, name: Name) -> Option<Value> {
        let equation = demand.truth && demand.spelled[0].operator == EQUAL;
        let rest = &demand.spelled[2.min(demand.spelled.len())..];
        let names: Vec<Name> = rest.iter().filter_map(name_of).collect();
        let defines = equation
            && name_of(&demand.spelled[1]) == Some(name)
            && names.iter().all(|one| self.known.contains(one));
        if !defines {
            return None;
        }
        evaluate(rest, self.table, &self.values, Reading::Sequent).ok()
    }

    /// Whether no demand whose names are all known is broken.
    fn holds_so_far(&self) -> bool {
        self.demands.iter().all(|demand| {
            let closed = demand.names.iter().all(|name| self.known.contains(name));
            !closed || self.is_met(demand)
        })
    }

    /// "Some value" that isn't found counts as false; with integers too large for here no demand is met.
    fn is_met(&self, demand: &Demand) -> bool {
        match evaluate(&demand.spelled, self.table, &self.values, Reading::Sequent) {
            Ok(value) => value == Value::Truth(demand.truth),
            Err(NoValue::NotFound) => !demand.truth,
            Err(_) => false,
        }
    }

    fn values_of(&self, (place, _): Name) -> Vec<Value> {
        if self.table.identifiers[place].type_number == INTEGER {
            self.integers.clone().map(Value::Integer).collect()
        } else {
            vec![Value::Truth(false), Value::Truth(true)]
        }
    }

    fn set(&mut self, (place, after): Name, value: Value) {
        if after {
            self.values.after[place] = value;
        } else {
            self.values.now[place] = value;
        }
    }

    fn found(&self) -> Vec<(Name, Value)> {
        let value = |&(place, after): &Name| match after {
            true => self.values.after[place],
            false => self.values.now[place],
        };
        let mut found: Vec<(Name, Value)> =
            self.known.iter().map(|name| (*name, value(name))).collect();
        found.sort_by_key(|one| one.0);
        found
    }
}
