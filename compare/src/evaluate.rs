//! Values of spelled formulas over i128, as a run reads them or as sequents do.

use crate::formula::*;
use crate::table::{Table, INTEGER};

#[derive(Clone, Copy, Debug, PartialEq, Eq)]
pub enum Value {
    Integer(i128),
    Truth(bool),
}

/// Why a formula has no value here.
#[derive(Clone, Copy, Debug, PartialEq, Eq)]
pub enum NoValue {
    /// A run reaches an undefined term.
    Undefined,
    /// An integer left i128.
    TooLarge,
    /// No value was found among those tried for "some value".
    NotFound,
}

/// How an undefined term is read: a run stops there, a sequent reads it as 0.
#[derive(Clone, Copy, Debug, PartialEq, Eq)]
pub enum Reading {
    Run,
    Sequent,
}

/// The values of identifiers, before and after, by number less one.
#[derive(Clone, Debug)]
pub struct Values {
    pub now: Vec<Value>,
    pub after: Vec<Value>,
}

/// Integers tried for "some value" lie between minus this and this.
const TRIED: i128 = 64;

type Result<T> = std::result::Result<T, NoValue>;

/// The value of a whole spelled formula.
pub fn evaluate(spelled: &[Symbol], table: &Table, values: &Values, how: Reading) -> Result<Value> {
    let first = spelled[0];
    if first.operator == SOME_VALUE || first.operator == SOME_AFTER_VALUE {
        return some_value(spelled, table, values, how);
    }
    let (left, right) = split_operands(spelled);
    let value = |operand: &[Symbol]| evaluate(operand, table, values, how);
    match first.operator {
        LITERAL => Ok(Value::Integer(i128::from(first.b))),
        IDENTIFIER => Ok(values.now[first.b as usize - 1]),
        AFTER => Ok(values.after[first.b as usize - 1]),
        TRUE | TOP => Ok(Value::Truth(true)),
        FALSE | BOTTOM => Ok(Value::Truth(false)),
        BOOL => value(left),
        NOT => Ok(Value::Truth(!truth(value(left)?))),
        NEGATION => arithmetic(MINUS, 0, integer(value(left)?), how),
        PLUS..=MOD => {
            let a = integer(value(left)?);
            arithmetic(first.operator, a, integer(value(right)?), how)
        }
        EQUAL => Ok(Value::Truth(value(left)? == value(right)?)),
        LESS => Ok(Value::Truth(integer(value(left)?) < integer(value(right)?))),
        AT_MOST => Ok(Value::Truth(
            integer(value(left)?) <= integer(value(right)?),
        )),
        _ => {
            let a = truth(value(left)?);
            logic(first.operator, a, || value(right).map(truth))
        }
    }
}

/// ∧ and ⇒ read their right side only where the left is true, ∨ only where it is false.
fn logic(operator: i32, left: bool, right: impl Fn() -> Result<bool>) -> Result<Value> {
    let truth = match operator {
        AND => left && right()?,
        OR => left || right()?,
        IMPLIES => !left || right()?,
        _ => left == right()?,
    };
    Ok(Value::Truth(truth))
}

/// ÷ is undefined for a divisor 0, mod but for 0 ≤ a and 0 < b.
fn is_undefined(operator: i32, a: i128, b: i128) -> bool {
    match operator {
        DIVIDE => b == 0,
        MOD => a < 0 || b <= 0,
        _ => false,
    }
}

/// ÷ rounds toward zero, and a mod b is a − b × (a ÷ b).
fn arithmetic(operator: i32, a: i128, b: i128, how: Reading) -> Result<Value> {
    if is_undefined(operator, a, b) {
        return match how {
            Reading::Run => Err(NoValue::Undefined),
            Reading::Sequent => Ok(Value::Integer(0)),
        };
    }
    let result = match operator {
        PLUS => a.checked_add(b),
        MINUS => a.checked_sub(b),
        TIMES => a.checked_mul(b),
        DIVIDE => a.checked_div(b),
        _ => a.checked_rem(b),
    };
    result.map(Value::Integer).ok_or(NoValue::TooLarge)
}

/// Tries both truth values, or some integers, for the identifier.
fn some_value(spelled: &[Symbol], table: &Table, values: &Values, how: Reading) -> Result<Value> {
    let place = spelled[0].b as usize - 1;
    let is_integer = table.identifiers[place].type_number == INTEGER;
    let tried: Vec<Value> = if is_integer {
        (-TRIED..=TRIED).map(Value::Integer).collect()
    } else {
        vec![Value::Truth(false), Value::Truth(true)]
    };
    let mut values = values.clone();
    for one in tried {
        if spelled[0].operator == SOME_VALUE {
            values.now[place] = one;
        } else {
            values.after[place] = one;
        }
        if evaluate(&spelled[1..], table, &values, how)? == Value::Truth(true) {
            return Ok(Value::Truth(true));
        }
    }
    if is_integer {
        Err(NoValue::NotFound)
    } else {
        Ok(Value::Truth(false))
    }
}

/// The spelled operands after the first symbol; empty where there are none.
fn split_operands(spelled: &[Symbol]) -> (&[Symbol], &[Symbol]) {
    match columns(spelled[0].operator) {
        Some(Columns::OneOperand) => (&spelled[1..], &[]),
        Some(Columns::TwoOperands) => spelled[1..].split_at(length(&spelled[1..])),
        _ => (&[], &[]),
    }
}

/// The number of symbols of the formula that starts here.
pub fn length(spelled: &[Symbol]) -> usize {
    let mut open = 1;
    let mut place = 0;
    while open > 0 {
        open = match columns(spelled[place].operator) {
            Some(Columns::TwoOperands) => open + 1,
            Some(Columns::OneOperand) | None => open,
            _ => open - 1,
        };
        place += 1;
    }
    place
}

fn integer(value: Value) -> i128 {
    match value {
        Value::Integer(integer) => integer,
        Value::Truth(truth) => i128::from(truth),
    }
}

fn truth(value: Value) -> bool {
    value == Value::Truth(true)
}
