//! Why a step isn't allowed, in words: the formula as mathematics, and the values of what it mentions.

use super::judge::Verdict;
use super::terms::{Fault, State};
use crate::evaluate::{is_boolean, Value};
use crate::formula::{sign, written, Formula, Mention};
use crate::refusal::described;
use crate::source::Source;

/// What a verdict says of a step of this event, with the step's values.
pub fn reason(source: &Source, event: i64, verdict: &Verdict, state: &State) -> String {
    let reasons = Reasons { source, state };
    match verdict {
        Verdict::False { place } => {
            let (shown, at) = reasons.formula(*place);
            format!("{}: `{shown}` is false{at}", described(source, *place))
        }
        Verdict::Gives { place, value } => reasons.gives(*place, *value),
        Verdict::Changed { variable } => {
            let (event, name) = (source.names.event(event), reasons.name(*variable));
            let (before, after) = (reasons.before(*variable), reasons.after(*variable));
            format!("event {event} doesn't set {name}, but {before} and {after}")
        }
        Verdict::Faulty {
            place,
            fault,
            term,
            operands,
        } => {
            let faulty = reasons.faulty(*fault, term, operands);
            format!("{}: {faulty}", described(source, *place))
        }
    }
}

struct Reasons<'a> {
    source: &'a Source,
    state: &'a State,
}

impl Reasons<'_> {
    /// An action that gives another value than the logged one.
    fn gives(&self, place: usize, value: i64) -> String {
        let variable = self.source.table.rows[place].b;
        let (shown, at) = self.formula(place);
        let (what, name) = (described(self.source, place), self.name(variable));
        let given = self.value(variable, value);
        let logged = self.after(variable);
        format!("{what}: `{name} ≔ {shown}` gives {given}{at}, but {logged} is logged")
    }

    /// A term that has no value, with the values of its operands.
    fn faulty(&self, fault: Fault, term: &Formula, operands: &[i64]) -> String {
        let (shown, at) = (self.shown(term), self.at(term));
        let operand = |n: usize| Value::Integer(operands[n].into()).shown();
        let exact = match (fault, operands.len()) {
            (Fault::Undefined, from_fault) => {
                let at_fault = 2 - from_fault;
                let side = ["dividend", "divisor"][at_fault];
                let term = self.shown(&term.operands[at_fault]);
                let value = operand(0);
                return format!("`{shown}` is undefined: its {side} `{term}` is {value}{at}");
            }
            (Fault::Outside, 1) => format!("−({})", operand(0)),
            (Fault::Outside, _) => {
                format!("{} {} {}", operand(0), sign(term.operator), operand(1))
            }
        };
        format!("`{shown}` is outside signed 64 bits: {exact}{at}")
    }

    /// The formula whose root a row of the table names, and the values of what it mentions.
    fn formula(&self, place: usize) -> (String, String) {
        let table = &self.source.table;
        let formula = table.root(place).and_then(|root| table.formula(root));
        let formula = formula.expect("a formula of an accepted table");
        (self.shown(&formula), self.at(&formula))
    }

    /// A formula by its event's own names: no other event's are in its sight.
    fn shown(&self, formula: &Formula) -> String {
        written(formula, &|number| self.source.names.own_name(number))
    }

    /// The values of what a formula mentions.
    fn at(&self, formula: &Formula) -> String {
        let mentions = formula.free().into_iter();
        let values: Vec<String> = mentions.map(|mention| self.mentioned(mention)).collect();
        match values.is_empty() {
            true => String::new(),
            false => format!(" at {}", values.join(", ")),
        }
    }

    fn mentioned(&self, mention: Mention) -> String {
        let identifier = mention.identifier as i64;
        match mention.after {
            true => self.after(identifier),
            false => self.before(identifier),
        }
    }

    fn before(&self, identifier: i64) -> String {
        let value = self.state.value(mention(identifier, false));
        let value = self.value(identifier, value);
        format!("{} = {value}", self.name(identifier))
    }

    fn after(&self, identifier: i64) -> String {
        let value = self.state.value(mention(identifier, true));
        let value = self.value(identifier, value);
        format!("{}' = {value}", self.name(identifier))
    }

    fn name(&self, identifier: i64) -> String {
        self.source.names.own_name(identifier as usize)
    }

    /// A value of an identifier, by its type.
    fn value(&self, identifier: i64, value: i64) -> String {
        let value = match is_boolean(&self.source.table, mention(identifier, false)) {
            true => Value::Truth(value == 1),
            false => Value::Integer(value.into()),
        };
        value.shown()
    }
}

fn mention(identifier: i64, after: bool) -> Mention {
    Mention {
        identifier: identifier as usize,
        after,
    }
}
