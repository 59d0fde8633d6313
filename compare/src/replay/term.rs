//! Values of terms as a replay reads them: exact ones in signed 64 bits, or why there is none.

use crate::formula::*;
use crate::table::{Node, Table};

#[derive(Clone, Copy, Debug, PartialEq, Eq, PartialOrd, Ord)]
pub enum Fault {
    /// A value has left signed 64 bits.
    Outside,
    /// A divisor is 0, or mod isn't defined.
    Undefined,
}

/// A value, or the first fault. Truth values and booleans are 0 and 1.
pub type Answer = Result<i64, Fault>;

/// Values by identifier number less one: `now` of constants, parameters and variables before a step, `after` of variables
/// after it.
#[derive(Clone, Debug)]
pub struct State {
    pub now: [i64; Table::MOST_IDENTIFIERS],
    pub after: [i64; Table::MOST_IDENTIFIERS],
}

impl Default for State {
    fn default() -> State {
        let none = [0; Table::MOST_IDENTIFIERS];
        State {
            now: none,
            after: none,
        }
    }
}

/// The value of the formula with this root, or its first fault from the left, operands before their operator.
pub fn value(nodes: &[Node], root: i32, state: &State) -> Answer {
    let Node { operator, b, c, .. } = nodes[root as usize - 1];
    let of = |operand: i32| value(nodes, operand, state);
    match operator {
        LITERAL => Ok(i64::from(b)),
        IDENTIFIER => Ok(state.now[b as usize - 1]),
        AFTER => Ok(state.after[b as usize - 1]),
        TRUE | TOP => Ok(1),
        FALSE | BOTTOM => Ok(0),
        BOOL => of(b),
        NEGATION => inside(of(b)?.checked_neg()),
        NOT => Ok(1 - of(b)?),
        PLUS..=MOD => arithmetic(operator, of(b)?, of(c)?),
        EQUAL..=AT_MOST => Ok(i64::from(compared(operator, of(b)?, of(c)?))),
        _ => connected(operator, of(b)?, || of(c)),
    }
}

/// ÷ is undefined for a divisor 0, mod but for 0 ≤ a and 0 < b.
fn is_undefined(operator: i32, a: i64, b: i64) -> bool {
    match operator {
        DIVIDE => b == 0,
        MOD => a < 0 || b <= 0,
        _ => false,
    }
}

/// ÷ rounds toward zero, and −2⁶³ ÷ −1 is outside 64 bits. A remainder that is defined never is.
fn arithmetic(operator: i32, a: i64, b: i64) -> Answer {
    if is_undefined(operator, a, b) {
        return Err(Fault::Undefined);
    }
    inside(match operator {
        PLUS => a.checked_add(b),
        MINUS => a.checked_sub(b),
        TIMES => a.checked_mul(b),
        DIVIDE => a.checked_div(b),
        _ => a.checked_rem(b),
    })
}

fn compared(operator: i32, a: i64, b: i64) -> bool {
    match operator {
        EQUAL => a == b,
        LESS => a < b,
        _ => a <= b,
    }
}

/// ∧ and ⇒ read their right side only where the left is true, ∨ only where it is false, ⇔ always.
fn connected(operator: i32, left: i64, right: impl Fn() -> Answer) -> Answer {
    match (operator, left) {
        (AND, 0) => Ok(0),
        (OR, 1) | (IMPLIES, 0) => Ok(1),
        (EQUIVALENT, _) => Ok(i64::from(left == right()?)),
        _ => right(),
    }
}

fn inside(exact: Option<i64>) -> Answer {
    exact.ok_or(Fault::Outside)
}
