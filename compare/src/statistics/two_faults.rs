//! Where the order of two faults decides that a step is refused: at which operators, in which formulas, and how deep.

use super::count;
use super::remainders::Seen;
use super::terms::{HIGHEST, LOWEST};
use crate::formula::*;
use crate::replay::term::{Answer, Fault};
use crate::replay::Role;
use crate::table::Node;
use std::collections::{BTreeMap, BTreeSet};

/// Two conditions that an operator meets, of which the first decides.
#[derive(Clone, Copy, Debug, PartialEq, Eq, PartialOrd, Ord)]
pub enum Case {
    OutsideThenUndefined,
    UndefinedThenOutside,
    /// The left operand is outside, and the right one makes the operator undefined.
    OutsideThenOperator,
    /// The right operand is outside, and by the left one, or by the right one's exact value, the operator would be undefined.
    RightThenOperator,
}

/// The operator, equality of integers and of booleans told apart.
#[derive(Clone, Copy, Debug, PartialEq, Eq, PartialOrd, Ord)]
pub enum At {
    Arithmetic(i32),
    Comparison(i32),
    BooleanEquality,
}

/// Counts over logs, or over presses: those in which such an operator decides.
#[derive(Clone, Debug, Default)]
pub struct TwoFaults {
    pub operators: BTreeMap<(Case, At), usize>,
    pub formulas: BTreeMap<(Case, Role), usize>,
    /// By the operators above it, those from four on together.
    pub depths: BTreeMap<(Case, usize), usize>,
}

/// How many operators above it are told apart.
pub const DEEPEST: usize = 4;

/// What decides on the way from a root to its first fault.
type Met = BTreeSet<(Case, At, usize)>;

impl TwoFaults {
    /// Counts a log or press that is stopped by a fault of the first of these formulas that has any.
    pub fn add(&mut self, seen: &Seen, formulas: &[(Role, i32)]) {
        let mut faulty = formulas.iter().filter(|one| seen.value(one.1).is_err());
        let Some(&(role, root)) = faulty.next() else {
            return;
        };
        let mut met = Met::new();
        go_down(seen, root, 0, &mut met);
        count_once(&mut self.operators, met.iter().map(|one| (one.0, one.1)));
        count_once(&mut self.formulas, met.iter().map(|one| (one.0, role)));
        count_once(&mut self.depths, met.iter().map(|one| (one.0, one.2)));
    }

    /// The counts as lines of text.
    pub fn report(&self) -> String {
        let mut text = String::new();
        for ((case, at), count) in &self.operators {
            text += &format!("{case:?} decides at {at:?}: {count}\n");
        }
        for ((case, role), count) in &self.formulas {
            text += &format!("{case:?} decides in {role:?}: {count}\n");
        }
        for ((case, depth), count) in &self.depths {
            text += &format!("{case:?} decides below {depth} operators: {count}\n");
        }
        text
    }
}

fn count_once<K: Ord>(counts: &mut BTreeMap<K, usize>, keys: impl Iterator<Item = K>) {
    let different: BTreeSet<K> = keys.collect();
    for key in different {
        count(counts, key);
    }
}

/// Each operator on the way would change the reply, if it took its other condition.
fn go_down(seen: &Seen, root: i32, depth: usize, met: &mut Met) {
    let node = seen.node(root);
    let below = DEEPEST.min(depth + 1);
    let Some(Columns::TwoOperands) = columns(node.operator) else {
        let operands = operands(node).into_iter();
        return operands.for_each(|one| go_down(seen, one, below, met));
    };
    let left = seen.value(node.b);
    if node.operator < AND {
        let case = case_of(seen, node, left, seen.value(node.c));
        met.extend(case.map(|case| (case, at(seen, node), depth)));
    }
    let faulty = [node.b, node.c]
        .into_iter()
        .find(|&one| seen.value(one).is_err());
    if let Some(side) = faulty {
        go_down(seen, side, below, met);
    }
}

fn case_of(seen: &Seen, node: Node, left: Answer, right: Answer) -> Option<Case> {
    match (left, right) {
        (Err(Fault::Outside), Err(Fault::Undefined)) => Some(Case::OutsideThenUndefined),
        (Err(Fault::Undefined), Err(Fault::Outside)) => Some(Case::UndefinedThenOutside),
        (Err(Fault::Outside), Ok(b)) => {
            let undefined = is_undefined(node.operator, 0, i128::from(b));
            undefined.then_some(Case::OutsideThenOperator)
        }
        (Ok(a), Err(Fault::Outside)) if matches!(node.operator, DIVIDE | MOD) => {
            let b = exact(seen, node.c).unwrap_or(1);
            let undefined = is_undefined(node.operator, i128::from(a), b);
            undefined.then_some(Case::RightThenOperator)
        }
        _ => None,
    }
}

fn is_undefined(operator: i32, a: i128, b: i128) -> bool {
    match operator {
        DIVIDE => b == 0,
        MOD => a < 0 || b <= 0,
        _ => false,
    }
}

/// The value of an integer whose parts may be outside, if all of them are near enough and none is undefined.
fn exact(seen: &Seen, root: i32) -> Option<i128> {
    let Node { operator, b, c, .. } = seen.node(root);
    let far = 4 * LOWEST..=4 * HIGHEST;
    let value = match operator {
        LITERAL | IDENTIFIER | AFTER => i128::from(seen.value(root).ok()?),
        NEGATION => -exact(seen, b)?,
        _ => {
            let (a, b) = (exact(seen, b)?, exact(seen, c)?);
            match operator {
                PLUS => a + b,
                MINUS => a - b,
                TIMES => a.checked_mul(b)?,
                _ if is_undefined(operator, a, b) => return None,
                DIVIDE => a / b,
                _ => a % b,
            }
        }
    };
    far.contains(&value).then_some(value)
}

fn at(seen: &Seen, node: Node) -> At {
    match node.operator {
        PLUS..=MOD => At::Arithmetic(node.operator),
        EQUAL if sort(seen.table, seen.node(node.b)) == Sort::Boolean => At::BooleanEquality,
        operator => At::Comparison(operator),
    }
}
