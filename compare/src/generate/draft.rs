//! A table before its nodes are numbered and its rows are laid out.

use super::random::Random;
use super::tree::Tree;
use crate::rows::Row;

/// A formula and the row that will name its root.
#[derive(Clone, Debug)]
pub struct DraftFormula {
    pub tag: i32,
    pub event: i32,
    pub identifier: i32,
    pub tree: Tree,
}

/// Identifiers are (kind, type, owner), events (machine, class, refined event).
#[derive(Clone, Debug, Default)]
pub struct Draft {
    pub identifiers: Vec<[i32; 3]>,
    pub events: Vec<[i32; 3]>,
    pub formulas: Vec<DraftFormula>,
}

/// A node waiting for its number.
struct Waiting {
    operator: i32,
    value: i32,
    operands: Vec<usize>,
    user: Option<usize>,
    open: usize,
    number: i32,
}

impl Draft {
    /// Lays out the rows; nodes get numbers in an order that the seed decides.
    pub fn rows(&self, random: &mut Random) -> Vec<Row> {
        let mut waiting = Vec::new();
        let roots: Vec<usize> = self
            .formulas
            .iter()
            .map(|formula| flatten(&formula.tree, &mut waiting))
            .collect();
        let in_order = random.one_in(3);
        let order = number_nodes(&mut waiting, random, in_order);

        let mut rows = Vec::new();
        rows.extend(
            self.identifiers
                .iter()
                .map(|&[a, b, c]| Row::new(10, a, b, c)),
        );
        rows.extend(order.iter().map(|&place| node_row(&waiting, place)));
        rows.extend(self.events.iter().map(|&[a, b, c]| Row::new(40, a, b, c)));
        for (formula, &root) in self.formulas.iter().zip(&roots) {
            rows.push(formula_row(formula, waiting[root].number));
        }
        rows.sort_by_key(|row| row.tag);
        rows
    }

    /// The number of nodes of all formulas.
    pub fn nodes(&self) -> usize {
        let mut waiting = Vec::new();
        for formula in &self.formulas {
            flatten(&formula.tree, &mut waiting);
        }
        waiting.len()
    }

    /// How many formulas have one of these tags.
    pub fn count(&self, tags: &[i32]) -> usize {
        let tagged = self.formulas.iter().filter(|one| tags.contains(&one.tag));
        tagged.count()
    }
}

/// Adds the tree's nodes, operands before their node, and gives the root's place.
fn flatten(tree: &Tree, waiting: &mut Vec<Waiting>) -> usize {
    let operands: Vec<usize> = tree
        .operands
        .iter()
        .map(|operand| flatten(operand, waiting))
        .collect();
    let place = waiting.len();
    for &operand in &operands {
        waiting[operand].user = Some(place);
    }
    waiting.push(Waiting {
        operator: tree.operator,
        value: tree.value,
        open: operands.len(),
        operands,
        user: None,
        number: 0,
    });
    place
}

/// Numbers the nodes in order, or in a mixed order with operands still first.
fn number_nodes(waiting: &mut [Waiting], random: &mut Random, in_order: bool) -> Vec<usize> {
    let mut order: Vec<usize> = Vec::new();
    if in_order {
        order.extend(0..waiting.len());
    } else {
        let mut ready: Vec<usize> = (0..waiting.len())
            .filter(|&place| waiting[place].open == 0)
            .collect();
        while !ready.is_empty() {
            let place = ready.swap_remove(random.below(ready.len()));
            order.push(place);
            if let Some(user) = waiting[place].user {
                waiting[user].open -= 1;
                if waiting[user].open == 0 {
                    ready.push(user);
                }
            }
        }
    }
    for (n, &place) in order.iter().enumerate() {
        waiting[place].number = n as i32 + 1;
    }
    order
}

fn node_row(waiting: &[Waiting], place: usize) -> Row {
    let node = &waiting[place];
    let number = |n: usize| node.operands.get(n).map(|&at| waiting[at].number);
    let b = number(0).unwrap_or(node.value);
    Row::new(20, node.operator, b, number(1).unwrap_or(0))
}

fn formula_row(formula: &DraftFormula, root: i32) -> Row {
    match formula.tag {
        50 => Row::new(50, formula.event, root, 0),
        51 | 52 | 60 => Row::new(formula.tag, formula.event, formula.identifier, root),
        tag => Row::new(tag, root, 0, 0),
    }
}
