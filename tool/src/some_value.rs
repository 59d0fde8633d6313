//! "Some value of": which values decide whether there is one.

use crate::evaluate::{evaluate, is_boolean, NoValue, Value, Values};
use crate::formula::operator::*;
use crate::formula::{Formula, Mention};
use crate::table::Table;

/// Integers that are tried where the body isn't linear lie between minus this and this.
const TRIED: i128 = 64;

/// Whether some value of the bound identifier meets the body. Where the identifier stands in linear comparisons alone, a few
/// integers decide; else some are tried, and if none of them meets the body there is no answer.
pub fn some_value(formula: &Formula, table: &Table, values: &Values) -> Result<Value, NoValue> {
    let bound = formula.bound().ok_or(NoValue::NotGiven)?;
    let body = &formula.operands[0];
    let mut values = values.clone();
    let (tried, decides) = match is_boolean(table, bound) {
        true => (vec![Value::Truth(false), Value::Truth(true)], true),
        false => {
            values.insert(bound, Value::Integer(0));
            let at_zero = |term: &Formula| match evaluate(term, table, &values) {
                Ok(Value::Integer(integer)) => Some(integer),
                _ => None,
            };
            integers(turns(body, bound, &at_zero))
        }
    };
    for one in tried {
        values.insert(bound, one);
        if evaluate(body, table, &values)? == Value::Truth(true) {
            return Ok(Value::Truth(true));
        }
    }
    match decides {
        true => Ok(Value::Truth(false)),
        false => Err(NoValue::NotFound),
    }
}

/// The integers to try, and whether they decide: those at and beside the turns, where the turns are known.
fn integers(turns: Option<Vec<i128>>) -> (Vec<Value>, bool) {
    let decides = turns.is_some();
    let tried: Vec<i128> = match turns {
        Some(turns) => {
            let beside = turns
                .iter()
                .flat_map(|turn| turn.saturating_sub(1)..=turn.saturating_add(1));
            beside.chain([0]).collect()
        }
        None => (-TRIED..=TRIED).collect(),
    };
    (tried.into_iter().map(Value::Integer).collect(), decides)
}

/// The integers at which a comparison may turn as the bound identifier grows: the body's truth is one and the same below
/// them, above them and between two neighbours. Nothing where the identifier stands in anything but linear comparisons.
fn turns(
    body: &Formula,
    bound: Mention,
    at_zero: &dyn Fn(&Formula) -> Option<i128>,
) -> Option<Vec<i128>> {
    if !body.free().contains(&bound) {
        return Some(vec![]);
    }
    match body.operator {
        EQUAL | LESS | AT_MOST => {
            let (left, right) = (&body.operands[0], &body.operands[1]);
            let slope = slope(left, bound, at_zero)?.checked_sub(slope(right, bound, at_zero)?)?;
            // left − right is apart + slope × the identifier
            let apart = at_zero(left)?.checked_sub(at_zero(right)?)?;
            let turn = apart.checked_mul(-slope.signum())?;
            Some(turn.checked_div_euclid(slope.abs()).into_iter().collect())
        }
        NOT | AND | OR | IMPLIES | IFF => {
            let parts = body.operands.iter().map(|one| turns(one, bound, at_zero));
            Some(parts.collect::<Option<Vec<_>>>()?.concat())
        }
        _ => None,
    }
}

/// By how much a term grows with the bound identifier, if it is linear in it.
fn slope(
    term: &Formula,
    bound: Mention,
    at_zero: &dyn Fn(&Formula) -> Option<i128>,
) -> Option<i128> {
    if term.mention() == Some(bound) {
        return Some(1);
    }
    if !term.free().contains(&bound) {
        return Some(0);
    }
    let of = |n: usize| slope(&term.operands[n], bound, at_zero);
    match term.operator {
        PLUS => of(0)?.checked_add(of(1)?),
        MINUS => of(0)?.checked_sub(of(1)?),
        NEGATION => of(0)?.checked_neg(),
        TIMES => {
            let (left, right) = (of(0)?, of(1)?);
            let parts = (
                left.checked_mul(at_zero(&term.operands[1])?)?,
                right.checked_mul(at_zero(&term.operands[0])?)?,
            );
            (left == 0 || right == 0).then(|| parts.0.checked_add(parts.1))?
        }
        _ => None,
    }
}
