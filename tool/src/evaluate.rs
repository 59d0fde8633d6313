//! Values of formulas as sequents read them: whole numbers, ÷ toward zero, an undefined ÷ or mod as 0.

use crate::formula::operator::*;
use crate::formula::{Formula, Mention};
use crate::some_value::some_value;
use crate::table::{Table, BOOLEAN};
use std::collections::BTreeMap;

#[derive(Clone, Copy, Debug, PartialEq, Eq)]
pub enum Value {
    Integer(i128),
    Truth(bool),
}

impl Value {
    /// A value as the notation has it.
    pub fn shown(&self) -> String {
        match self {
            Value::Integer(integer) if *integer < 0 => format!("−{}", integer.unsigned_abs()),
            Value::Integer(integer) => integer.to_string(),
            Value::Truth(truth) => truth.to_string().to_uppercase(),
        }
    }
}

/// Why a formula has no value here.
#[derive(Clone, Copy, Debug, PartialEq, Eq)]
pub enum NoValue {
    /// An integer left 128 bits.
    TooLarge,
    /// None of the values that were tried for "some value" meets it, but others may.
    NotFound,
    /// A mentioned identifier has no value, or a value of the wrong type.
    NotGiven,
}

pub type Values = BTreeMap<Mention, Value>;

/// The value of a formula; `table` has the types of bound identifiers.
pub fn evaluate(formula: &Formula, table: &Table, values: &Values) -> Result<Value, NoValue> {
    let value = |n: usize| evaluate(&formula.operands[n], table, values);
    let integer = |n: usize| match value(n)? {
        Value::Integer(integer) => Ok(integer),
        Value::Truth(_) => Err(NoValue::NotGiven),
    };
    let truth = |n: usize| Ok(value(n)? == Value::Truth(true));
    match formula.operator {
        LITERAL => Ok(Value::Integer(i128::from(formula.number))),
        IDENTIFIER | AFTER => {
            let mention = formula.mention().expect("a leaf that mentions");
            values.get(&mention).copied().ok_or(NoValue::NotGiven)
        }
        TRUE | TOP => Ok(Value::Truth(true)),
        FALSE | BOTTOM => Ok(Value::Truth(false)),
        BOOL => value(0),
        NOT => Ok(Value::Truth(!truth(0)?)),
        NEGATION => arithmetic(MINUS, 0, integer(0)?),
        PLUS..=MOD => arithmetic(formula.operator, integer(0)?, integer(1)?),
        EQUAL => Ok(Value::Truth(value(0)? == value(1)?)),
        LESS => Ok(Value::Truth(integer(0)? < integer(1)?)),
        AT_MOST => Ok(Value::Truth(integer(0)? <= integer(1)?)),
        AND => Ok(Value::Truth(truth(0)? && truth(1)?)),
        OR => Ok(Value::Truth(truth(0)? || truth(1)?)),
        IMPLIES => Ok(Value::Truth(!truth(0)? || truth(1)?)),
        IFF => Ok(Value::Truth(truth(0)? == truth(1)?)),
        _ => some_value(formula, table, values),
    }
}

/// a mod b is a − b × (a ÷ b), and defined for 0 ≤ a and 0 < b.
fn arithmetic(operator: i64, a: i128, b: i128) -> Result<Value, NoValue> {
    let result = match operator {
        PLUS => a.checked_add(b),
        MINUS => a.checked_sub(b),
        TIMES => a.checked_mul(b),
        DIVIDE if b == 0 => Some(0),
        DIVIDE => a.checked_div(b),
        _ if a < 0 || b <= 0 => Some(0),
        _ => a.checked_rem(b),
    };
    result.map(Value::Integer).ok_or(NoValue::TooLarge)
}

/// Whether an identifier is a boolean.
pub fn is_boolean(table: &Table, mention: Mention) -> bool {
    let row = table.identifier(mention.identifier as i64);
    row.is_some_and(|row| row.b == BOOLEAN)
}
