//! Wrong orders in which the faults of an operator and of its operands may be taken.

use super::former_order::former_fault;
use super::plain_replay::Mistake;
use super::plain_replay::Value::{self, *};
use compare::formula::*;
use compare::table::{Node, Table};

/// The operators at which an order is wrong.
#[derive(Clone, Copy, Debug, PartialEq, Eq)]
pub enum At {
    All,
    Arithmetic,
    Quotients,
    Remainders,
    Comparisons,
    BooleanEqualities,
}

impl At {
    fn holds(self, table: &Table, node: Node) -> bool {
        let operand = || sort(table, table.nodes[node.b as usize - 1]);
        match self {
            At::All => true,
            At::Arithmetic => node.operator < EQUAL,
            At::Quotients => node.operator == DIVIDE,
            At::Remainders => node.operator == MOD,
            At::Comparisons => node.operator >= EQUAL,
            At::BooleanEqualities => node.operator == EQUAL && operand() == Sort::Boolean,
        }
    }
}

/// What an operator gives by a mistake in the order, where that is about these operands.
pub fn wrong_order(
    mistake: Mistake,
    table: &Table,
    node: Node,
    left: Value,
    right: Value,
) -> Option<Value> {
    let Node { operator, b, c, .. } = node;
    let divides = operator == DIVIDE || operator == MOD;
    match (mistake, left, right) {
        (Mistake::Former(at), ..) if at.holds(table, node) => former_fault(operator, left, right),
        (_, _, Inside(_)) if divides => operator_first(mistake, table, node, left, right),
        (Mistake::RightFirst(at), _, Outside(_) | Undefined) if at.holds(table, node) => {
            Some(right)
        }
        (Mistake::LowerNumberFirst, Outside(_) | Undefined, Outside(_) | Undefined) if c < b => {
            Some(right)
        }
        (Mistake::OutsideWins, Undefined, Outside(_)) => Some(right),
        (Mistake::UndefinedDivisorWins, Outside(_), Undefined) if divides => Some(Undefined),
        (Mistake::ZeroTimesStops, Inside(0), _) if operator == TIMES => Some(Inside(0)),
        _ => None,
    }
}

/// The divisor alone makes the operator undefined, whatever the dividend is.
fn operator_first(
    mistake: Mistake,
    table: &Table,
    node: Node,
    left: Value,
    right: Value,
) -> Option<Value> {
    let undefined = match (node.operator, right) {
        (DIVIDE, Inside(0)) => true,
        (MOD, Inside(..=0)) => true,
        _ => false,
    };
    match (mistake, left) {
        (Mistake::OperatorBeforeLeft(at), Outside(_)) if at.holds(table, node) => {
            undefined.then_some(Undefined)
        }
        _ => None,
    }
}
