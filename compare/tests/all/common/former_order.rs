//! The order of faults before request 8: whatever was both outside 64 bits and undefined counted as undefined. It is kept only to
//! check which replies the request has changed, and that a program which still has this order is found.

use super::plain_replay::Value::{self, *};
use compare::formula::{DIVIDE, MOD};

/// Undefined, where the former order has that: by either operand, or by an operator whose divisor isn't faulty. A dividend
/// outside wasn't negative.
pub fn former_fault(operator: i32, left: Value, right: Value) -> Option<Value> {
    let undefined = match (operator, left, right) {
        (_, Undefined, _) | (_, _, Undefined) => true,
        (DIVIDE, _, Inside(0)) => true,
        (MOD, _, Inside(..=0)) | (MOD, Inside(..0), Inside(_)) => true,
        _ => false,
    };
    undefined.then_some(Undefined)
}
