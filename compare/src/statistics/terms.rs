//! Which operators met which operands where a formula stops a replay.

use crate::formula::*;
use crate::replay::log::Log;
use crate::replay::machine::{Change, Machine, Step};
use crate::replay::term::{Answer, Fault, State};
use crate::replay::{Cause, Role};
use crate::table::{Node, Table};
use std::collections::BTreeMap;

/// What an operand gives.
#[derive(Clone, Copy, Debug, PartialEq, Eq, PartialOrd, Ord)]
pub enum Class {
    Zero,
    Lowest,
    Highest,
    Other,
    Outside,
    Undefined,
}

#[derive(Clone, Copy, Debug, PartialEq, Eq, PartialOrd, Ord)]
pub enum Side {
    Left,
    Right,
}

/// Counts of what was met.
#[derive(Clone, Debug, Default)]
pub struct Terms {
    /// Arithmetic operators and comparisons, by what their operands give, be the right one read or not.
    pub pairs: BTreeMap<(i32, Class, Class), usize>,
    /// Connectives with a fault on one side, by the sort of formula.
    pub connected: BTreeMap<(Role, i32, Side, Fault), usize>,
    /// Operators whose exact value is an end of 64 bits or one past it.
    pub ends: BTreeMap<(i32, i128), usize>,
}

/// The formulas of one step and the values they see.
struct Seen<'a> {
    table: &'a Table,
    machine: &'a Machine,
    state: &'a State,
    role: Role,
}

impl Terms {
    /// Counts what is met in the step at which a formula stops the log.
    pub fn add(&mut self, table: &Table, machine: &Machine, run: &[u8]) {
        let (mut log, mut state) = (Log::new(run), State::default());
        let mut first = true;
        while let Ok(step) = machine.read(&mut log, first, &mut state) {
            if let Err(Cause::Formula(..)) = machine.judge(step, &state) {
                for (role, root) in formulas(step) {
                    let seen = Seen {
                        table,
                        machine,
                        state: &state,
                        role,
                    };
                    if self.meet(&seen, root).is_err() {
                        return;
                    }
                }
                return;
            }
            step.settle(&mut state);
            first = false;
        }
    }

    /// Counts a node and all that are read below it, and gives its value.
    fn meet(&mut self, seen: &Seen, root: i32) -> Answer {
        let Node { operator, b, c, .. } = seen.table.nodes[root as usize - 1];
        match columns(operator) {
            Some(Columns::OneOperand) => {
                let answer = self.meet(seen, b);
                self.count_end(operator, answer, answer);
            }
            Some(Columns::TwoOperands) if operator >= AND => self.connect(seen, operator, b, c),
            Some(Columns::TwoOperands) => {
                let left = self.meet(seen, b);
                let right = match left {
                    Ok(_) => self.meet(seen, c),
                    Err(_) => seen.machine.value(c, seen.state),
                };
                let pair = (operator, class(left), class(right));
                *self.pairs.entry(pair).or_default() += 1;
                self.count_end(operator, left, right);
            }
            _ => {}
        }
        seen.machine.value(root, seen.state)
    }

    fn connect(&mut self, seen: &Seen, operator: i32, left: i32, right: i32) {
        let mut fault = |side: Side, fault: Fault| {
            let one = (seen.role, operator, side, fault);
            *self.connected.entry(one).or_default() += 1;
        };
        match seen.machine.value(left, seen.state) {
            Err(one) => fault(Side::Left, one),
            Ok(truth) if is_read(operator, truth) => {
                if let Err(one) = seen.machine.value(right, seen.state) {
                    fault(Side::Right, one);
                }
                self.meet(seen, right).ok();
            }
            Ok(_) => {}
        }
        self.meet(seen, left).ok();
    }

    fn count_end(&mut self, operator: i32, left: Answer, right: Answer) {
        let (Ok(a), Ok(b)) = (left, right) else {
            return;
        };
        let (a, b) = (i128::from(a), i128::from(b));
        let exact = match operator {
            PLUS => a + b,
            MINUS => a - b,
            TIMES => a * b,
            DIVIDE if b != 0 => a / b,
            NEGATION => -a,
            _ => return,
        };
        if [LOWEST - 1, LOWEST, HIGHEST, HIGHEST + 1].contains(&exact) {
            *self.ends.entry((operator, exact)).or_default() += 1;
        }
    }

    /// The counts as lines of text.
    pub fn report(&self) -> String {
        let mut text = String::new();
        for ((operator, left, right), count) in &self.pairs {
            text += &format!("operator {operator} of {left:?} and {right:?}: {count}\n");
        }
        for ((role, operator, side, fault), count) in &self.connected {
            text += &format!("{role:?}, {operator} with {fault:?} {side:?}: {count}\n");
        }
        for ((operator, exact), count) in &self.ends {
            text += &format!("operator {operator} gives {exact}: {count}\n");
        }
        text
    }
}

pub const LOWEST: i128 = i64::MIN as i128;
pub const HIGHEST: i128 = i64::MAX as i128;

/// The formulas of a step in the order in which they are read.
pub fn formulas(step: &Step) -> Vec<(Role, i32)> {
    let changes = step.variables.iter().filter_map(|one| match one.1 {
        Change::Equal(root) => Some((Role::Equal, root)),
        Change::SuchThat(root) => Some((Role::SuchThat, root)),
        Change::Kept => None,
    });
    step.conditions.iter().copied().chain(changes).collect()
}

/// Whether a connective with this left side reads its right one.
pub fn is_read(operator: i32, left: i64) -> bool {
    match operator {
        AND | IMPLIES => left == 1,
        OR => left == 0,
        _ => true,
    }
}

fn class(answer: Answer) -> Class {
    match answer {
        Ok(0) => Class::Zero,
        Ok(i64::MIN) => Class::Lowest,
        Ok(i64::MAX) => Class::Highest,
        Ok(_) => Class::Other,
        Err(Fault::Outside) => Class::Outside,
        Err(Fault::Undefined) => Class::Undefined,
    }
}
