//! Values of terms as a replay reads them: exact ones in signed 64 bits, or the term that has none. Booleans are 0 and 1.

use crate::formula::operator::*;
use crate::formula::{Formula, Mention};

/// Why a term has no value.
#[derive(Clone, Copy, Debug, PartialEq, Eq)]
pub enum Fault {
    Outside,
    Undefined,
}

/// The term that has no value, and the values of its operands; of an undefined one those from the operand at fault on.
#[derive(Clone, Debug)]
pub struct Faulty<'a> {
    pub fault: Fault,
    pub term: &'a Formula,
    pub operands: Vec<i64>,
}

type Answer<'a> = Result<i64, Faulty<'a>>;

/// Values by identifier number less one: before the step, of constants and parameters too, and after it.
#[derive(Clone, Debug)]
pub struct State {
    pub now: Vec<i64>,
    pub after: Vec<i64>,
}

impl State {
    pub fn new(identifiers: usize) -> State {
        State {
            now: vec![0; identifiers],
            after: vec![0; identifiers],
        }
    }

    pub fn value(&self, mention: Mention) -> i64 {
        let values = if mention.after {
            &self.after
        } else {
            &self.now
        };
        let place = mention.identifier.checked_sub(1);
        let value = place.and_then(|place| values.get(place));
        value.copied().unwrap_or(0)
    }
}

/// The value of a formula, or its first term without one: from the left, operands before their operator.
pub fn value<'a>(formula: &'a Formula, state: &State) -> Answer<'a> {
    let of = |n: usize| value(&formula.operands[n], state);
    match formula.operator {
        LITERAL => Ok(formula.number),
        IDENTIFIER | AFTER => {
            let mention = formula.mention().expect("a leaf that mentions");
            Ok(state.value(mention))
        }
        TRUE | TOP => Ok(1),
        FALSE | BOTTOM => Ok(0),
        BOOL => of(0),
        NOT => Ok(1 - of(0)?),
        NEGATION => {
            let operand = of(0)?;
            inside(formula, operand.checked_neg(), &[operand])
        }
        PLUS..=MOD | EQUAL..=AT_MOST => both(formula, of(0)?, of(1)?),
        _ => connected(formula.operator, of(0)?, || of(1)),
    }
}

/// An operator that reads both operands, whose values these are.
fn both(formula: &Formula, left: i64, right: i64) -> Answer<'_> {
    if let Some(operands) = at_fault(formula.operator, left, right) {
        return Err(Faulty {
            fault: Fault::Undefined,
            term: formula,
            operands,
        });
    }
    let exact = strict(formula.operator, left, right);
    inside(formula, exact, &[left, right])
}

/// The operand for which ÷ or mod is undefined, and those after it: a divisor 0; of mod a dividend below 0 or a divisor
/// that isn't above it.
fn at_fault(operator: i64, dividend: i64, divisor: i64) -> Option<Vec<i64>> {
    match operator {
        DIVIDE if divisor == 0 => Some(vec![divisor]),
        MOD if dividend < 0 => Some(vec![dividend, divisor]),
        MOD if divisor <= 0 => Some(vec![divisor]),
        _ => None,
    }
}

/// Nothing if it is outside 64 bits. ÷ rounds toward zero.
fn strict(operator: i64, a: i64, b: i64) -> Option<i64> {
    match operator {
        PLUS => a.checked_add(b),
        MINUS => a.checked_sub(b),
        TIMES => a.checked_mul(b),
        DIVIDE => a.checked_div(b),
        MOD => a.checked_rem(b),
        EQUAL => Some(i64::from(a == b)),
        LESS => Some(i64::from(a < b)),
        _ => Some(i64::from(a <= b)),
    }
}

/// ∧ and ⇒ read their right side only where the left is true, ∨ only where it is false, ⇔ always.
fn connected<'a>(operator: i64, left: i64, right: impl Fn() -> Answer<'a>) -> Answer<'a> {
    match (operator, left) {
        (AND, 0) => Ok(0),
        (OR, 1) | (IMPLIES, 0) => Ok(1),
        (IFF, _) => Ok(i64::from(left == right()?)),
        _ => right(),
    }
}

fn inside<'a>(term: &'a Formula, exact: Option<i64>, operands: &[i64]) -> Answer<'a> {
    exact.ok_or_else(|| Faulty {
        fault: Fault::Outside,
        term,
        operands: operands.to_vec(),
    })
}
