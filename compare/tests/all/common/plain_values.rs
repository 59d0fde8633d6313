//! Values of formulas once more, node by node, as sequents read them, with mistakes that can be put in.

use compare::evaluate::{Value, Values};
use compare::formula::*;
use compare::generate::random::Random;
use compare::table::{Node, Table, INTEGER};

/// A mistake in what ÷ and mod are read as.
#[derive(Clone, Copy, Debug, PartialEq, Eq)]
pub enum Mistake {
    None,
    /// a − b × (a ÷ b) but for b = 0.
    OldRemainder,
    NegativeDividend,
    NegativeDivisor,
    /// a mod 0 is a.
    ZeroDivisor,
    /// An undefined remainder is the dividend, not 0.
    UndefinedIsDividend,
    QuotientAsRemainder,
}

/// The value of the formula with this root, or nothing where an integer gets too large.
pub fn value(mistake: Mistake, table: &Table, root: i32, values: &Values) -> Option<i128> {
    let Node { operator, b, c, .. } = table.nodes[root as usize - 1];
    let number = |value: Value| match value {
        Value::Integer(integer) => integer,
        Value::Truth(truth) => i128::from(truth),
    };
    let of = |root: i32| value(mistake, table, root, values);
    match columns(operator)? {
        Columns::Nothing => Some(i128::from(operator == TRUE || operator == TOP)),
        Columns::Value => Some(i128::from(b)),
        Columns::Identifier => Some(number(values.now[b as usize - 1])),
        Columns::Variable => Some(number(values.after[b as usize - 1])),
        Columns::OneOperand => match operator {
            NEGATION => of(b)?.checked_neg(),
            NOT => Some(1 - of(b)?),
            _ => of(b),
        },
        Columns::TwoOperands => pair(mistake, operator, of(b)?, || of(c)),
    }
}

fn pair(
    mistake: Mistake,
    operator: i32,
    a: i128,
    right: impl Fn() -> Option<i128>,
) -> Option<i128> {
    match (operator, a) {
        (AND, 0) => return Some(0),
        (OR, 1) | (IMPLIES, 0) => return Some(1),
        _ => {}
    }
    let b = right()?;
    match operator {
        PLUS => a.checked_add(b),
        MINUS => a.checked_sub(b),
        TIMES => a.checked_mul(b),
        DIVIDE => quotient(mistake, a, b),
        MOD => Some(remainder(mistake, a, b)),
        EQUAL | EQUIVALENT => Some(i128::from(a == b)),
        LESS => Some(i128::from(a < b)),
        AT_MOST => Some(i128::from(a <= b)),
        _ => Some(b),
    }
}

fn quotient(mistake: Mistake, a: i128, b: i128) -> Option<i128> {
    match b {
        0 => Some(0),
        _ if mistake == Mistake::QuotientAsRemainder && (a < 0 || b < 0) => Some(0),
        _ => a.checked_div(b),
    }
}

fn remainder(mistake: Mistake, a: i128, b: i128) -> i128 {
    let defined = match mistake {
        Mistake::OldRemainder => b != 0,
        Mistake::NegativeDividend => b > 0,
        Mistake::NegativeDivisor => a >= 0 && b != 0,
        _ => a >= 0 && b > 0,
    };
    match mistake {
        _ if defined => a % b,
        Mistake::ZeroDivisor if a >= 0 && b == 0 => a,
        Mistake::UndefinedIsDividend => a,
        _ => 0,
    }
}

/// Small values of all identifiers, before and after.
pub fn any_values(random: &mut Random, table: &Table) -> Values {
    let types = table.identifiers.iter().map(|one| one.type_number);
    let now = types.clone().map(|one| any_value(random, one)).collect();
    let after = types.map(|one| any_value(random, one)).collect();
    Values { now, after }
}

fn any_value(random: &mut Random, type_number: i32) -> Value {
    if type_number == INTEGER {
        Value::Integer(random.below(5) as i128 - 2)
    } else {
        Value::Truth(random.one_in(2))
    }
}
