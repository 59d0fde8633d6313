//! What the formulas of an accepted table mention, worked out once: sets of identifiers, with bit n − 1 for identifier n.

use crate::formula::{columns, Columns, AND, DIVIDE, IMPLIES, MOD, OR};
use crate::sequents::Entry;
use crate::table::*;

/// What a node and all below it mention.
#[derive(Clone, Copy, Default)]
struct Tree {
    /// As written.
    written: u64,
    /// In the tree's well-definedness, spelled.
    defined: u64,
    /// Whether ÷ or mod is among its nodes.
    divides: bool,
}

/// A set for each identifier.
type Sets = [u64; Table::MOST_IDENTIFIERS];

/// What nodes and the entries of events mention.
pub struct Mentioned {
    /// By node.
    trees: Vec<Tree>,
    /// Form 4, by event and variable.
    moves: Vec<Sets>,
    /// Form 6, by event and identifier.
    witnesses: Vec<Sets>,
    /// The variables that each event has a row 51 or 52 for.
    assigned: Vec<u64>,
}

impl Mentioned {
    /// One pass over the nodes, whose operands come first, and one over the rows that name roots.
    pub fn of(table: &Table) -> Mentioned {
        let mut trees = Vec::with_capacity(table.nodes.len());
        for node in &table.nodes {
            trees.push(tree(*node, &trees));
        }
        let events = table.events.len();
        let mut mentioned = Mentioned {
            trees,
            // "After equals before" mentions the variable alone.
            moves: vec![alone(); events],
            witnesses: vec![alone(); events],
            assigned: vec![0; events],
        };
        for formula in &table.formulas {
            mentioned.add(formula);
        }
        mentioned
    }

    fn add(&mut self, formula: &Formula) {
        if !formula.is_action() && formula.tag != WITNESS {
            return;
        }
        let written = self.tree(formula.root).written;
        let own = only(formula.identifier);
        let event = formula.event as usize - 1;
        let identifier = formula.identifier as usize - 1;
        match formula.tag {
            WITNESS => self.witnesses[event][identifier] = own | written,
            BECOMES_EQUAL => self.moves[event][identifier] = own | written,
            _ => self.moves[event][identifier] = written,
        }
        if formula.is_action() {
            self.assigned[event] |= own;
        }
    }

    fn tree(&self, root: i32) -> Tree {
        self.trees[root as usize - 1]
    }

    /// Whether the formula has ÷ or mod, under bool and in sides that are never read too.
    pub fn divides(&self, root: i32) -> bool {
        self.tree(root).divides
    }

    /// Whether the event assigns a variable that the formula mentions.
    pub fn assigns(&self, event: i32, root: i32) -> bool {
        self.assigned[event as usize - 1] & self.tree(root).written != 0
    }

    /// The identifiers of an entry spelled out: the b of operators 2, 3, 40 and 41.
    pub fn in_entry(&self, entry: Entry) -> u64 {
        let Entry {
            form,
            first,
            second,
        } = entry;
        let of = |sets: &[Sets]| sets[first as usize - 1][second as usize - 1];
        match form {
            3 => self.tree(first).defined,
            4 => of(&self.moves),
            5 => only(second) | of(&self.moves),
            6 => of(&self.witnesses),
            10 => only(first),
            _ => self.tree(first).written,
        }
    }
}

/// What the node's tree mentions, from what those of its operands do.
fn tree(node: Node, below: &[Tree]) -> Tree {
    let operand = |number: i32| below[number as usize - 1];
    match columns(node.operator) {
        Some(Columns::Identifier | Columns::Variable) => Tree {
            written: only(node.b),
            ..Tree::default()
        },
        Some(Columns::OneOperand) => operand(node.b),
        Some(Columns::TwoOperands) => pair(node.operator, operand(node.b), operand(node.c)),
        _ => Tree::default(),
    }
}

/// The divisor of ÷, both operands of mod, and the left side of ∧, ∨ and ⇒ stand in the well-definedness as written.
fn pair(operator: i32, left: Tree, right: Tree) -> Tree {
    let as_written = match operator {
        DIVIDE => right.written,
        MOD => left.written | right.written,
        AND | OR | IMPLIES => left.written,
        _ => 0,
    };
    Tree {
        written: left.written | right.written,
        defined: left.defined | right.defined | as_written,
        divides: operator == DIVIDE || operator == MOD || left.divides || right.divides,
    }
}

/// The set of one identifier.
fn only(identifier: i32) -> u64 {
    1 << (identifier - 1)
}

/// For each identifier the set of it alone.
fn alone() -> Sets {
    std::array::from_fn(|place| 1 << place)
}

/// How many identifiers there are in a set, the lowest and the highest; 0 where there are none.
pub fn counted(set: u64) -> [i32; 3] {
    let lowest = match set {
        0 => 0,
        _ => set.trailing_zeros() + 1,
    };
    [set.count_ones(), lowest, 64 - set.leading_zeros()].map(|number| number as i32)
}
