//! Which operands mod has where it decides that a step is refused, and where it is worked out in steps that are allowed.

use super::count;
use super::terms::is_read;
use crate::formula::*;
use crate::replay::machine::Machine;
use crate::replay::term::{Answer, Fault, State};
use crate::replay::Role;
use crate::table::{Node, Table};
use std::collections::{BTreeMap, BTreeSet};

/// What an operand of mod gives.
#[derive(Clone, Copy, Debug, PartialEq, Eq, PartialOrd, Ord)]
pub enum Operand {
    Negative,
    Zero,
    Positive,
    Outside,
    Undefined,
}

/// Dividend and divisor.
pub type Pair = (Operand, Operand);

/// Values of both at the ends of what is defined, and of 64 bits.
pub const ENDS: [(i64, i64); 6] = [
    (0, 1),
    (i64::MAX, 1),
    (-1, 1),
    (0, 0),
    (0, -1),
    (i64::MIN, -1),
];

/// Counts over logs, or over presses.
#[derive(Clone, Debug, Default)]
pub struct Remainders {
    /// Those that are stopped by a fault of a mod or below it, by its operands.
    pub decided: BTreeMap<(Fault, Pair), usize>,
    /// Those of them that 17 stops though a term to the right of this mod is outside.
    pub beside: BTreeMap<Pair, usize>,
    /// Those that are accepted with a mod worked out, and by its operands.
    pub accepted: usize,
    pub worked_out: BTreeMap<Pair, usize>,
    /// Those in which these values decide, or are worked out and accepted.
    pub ends: BTreeMap<(i64, i64), usize>,
}

/// Dividends and divisors.
pub type Met = BTreeSet<(i64, i64)>;

/// Whether a table has any mod.
pub fn has_mod(table: &Table) -> bool {
    table.nodes.iter().any(|node| node.operator == MOD)
}

/// Formulas and the values that they see.
pub struct Seen<'a> {
    pub table: &'a Table,
    pub machine: &'a Machine,
    pub state: &'a State,
}

impl Seen<'_> {
    pub fn node(&self, root: i32) -> Node {
        self.table.nodes[root as usize - 1]
    }

    pub fn value(&self, root: i32) -> Answer {
        self.machine.value(root, self.state)
    }

    pub fn meet_all(&self, formulas: &[(Role, i32)], met: &mut Met) {
        formulas.iter().for_each(|one| self.meet(one.1, met));
    }

    /// Adds the operands of all mods that are read below a root without a fault.
    fn meet(&self, root: i32, met: &mut Met) {
        let node = self.node(root);
        let Some(Columns::TwoOperands) = columns(node.operator) else {
            operands(node)
                .into_iter()
                .for_each(|one| self.meet(one, met));
            return;
        };
        self.meet(node.b, met);
        let left = self.value(node.b);
        if node.operator >= AND && !left.is_ok_and(|truth| is_read(node.operator, truth)) {
            return;
        }
        self.meet(node.c, met);
        if let (MOD, Ok(a), Ok(b)) = (node.operator, left, self.value(node.c)) {
            met.insert((a, b));
        }
    }
}

impl Remainders {
    /// Counts a log or press that is accepted.
    pub fn add_accepted(&mut self, met: &Met) {
        self.accepted += usize::from(!met.is_empty());
        let pairs: BTreeSet<Pair> = met.iter().map(|&(a, b)| (sign(a), sign(b))).collect();
        for pair in pairs {
            count(&mut self.worked_out, pair);
        }
        for &values in met.iter().filter(|values| ENDS.contains(values)) {
            count(&mut self.ends, values);
        }
    }

    /// Counts one that is stopped by a fault of the first of these formulas that has any.
    pub fn add_stopped(&mut self, seen: &Seen, formulas: &[(Role, i32)]) {
        let faulty = |&(_, root): &(Role, i32)| Some((root, seen.value(root).err()?));
        if let Some((root, fault)) = formulas.iter().find_map(faulty) {
            self.go_down(seen, root, fault, false);
        }
    }

    /// Goes down to the first fault, and counts each mod on the way.
    fn go_down(&mut self, seen: &Seen, root: i32, fault: Fault, outside_beside: bool) {
        let node = seen.node(root);
        let answers: Vec<Answer> = operands(node)
            .into_iter()
            .map(|one| seen.value(one))
            .collect();
        match answers[..] {
            [only] if only == Err(fault) => self.go_down(seen, node.b, fault, outside_beside),
            [left, _] if node.operator >= AND => {
                let side = if left.is_err() { node.b } else { node.c };
                self.go_down(seen, side, fault, outside_beside);
            }
            [left, right] => {
                if node.operator == MOD {
                    self.add_decided(fault, left, right, outside_beside);
                }
                let outside = fault == Fault::Undefined && right == Err(Fault::Outside);
                match (left, right) {
                    (Err(_), _) => self.go_down(seen, node.b, fault, outside_beside || outside),
                    (_, Err(_)) => self.go_down(seen, node.c, fault, outside_beside),
                    _ => {}
                }
            }
            _ => {}
        }
    }

    fn add_decided(&mut self, fault: Fault, left: Answer, right: Answer, outside_beside: bool) {
        let pair = (operand(left), operand(right));
        count(&mut self.decided, (fault, pair));
        if outside_beside {
            count(&mut self.beside, pair);
        }
        if let (Ok(a), Ok(b)) = (left, right) {
            if ENDS.contains(&(a, b)) {
                count(&mut self.ends, (a, b));
            }
        }
    }

    /// The counts as lines of text.
    pub fn report(&self) -> String {
        let mut text = String::new();
        for ((fault, (dividend, divisor)), count) in &self.decided {
            text += &format!("{dividend:?} mod {divisor:?} decides {fault:?}: {count}\n");
        }
        for ((dividend, divisor), count) in &self.beside {
            text +=
                &format!("{dividend:?} mod {divisor:?} stands before a term outside: {count}\n");
        }
        text += &format!("accepted with mod: {}\n", self.accepted);
        for ((dividend, divisor), count) in &self.worked_out {
            text += &format!("accepted with {dividend:?} mod {divisor:?}: {count}\n");
        }
        for ((dividend, divisor), count) in &self.ends {
            text += &format!("{dividend} mod {divisor}: {count}\n");
        }
        text
    }
}

fn operand(answer: Answer) -> Operand {
    match answer {
        Ok(value) => sign(value),
        Err(Fault::Outside) => Operand::Outside,
        Err(Fault::Undefined) => Operand::Undefined,
    }
}

fn sign(value: i64) -> Operand {
    match value {
        ..0 => Operand::Negative,
        0 => Operand::Zero,
        _ => Operand::Positive,
    }
}
