//! Accepted tables of formulas that request 4 tells apart: with ÷ or mod in every place for them or without, and invariants
//! of few variables.

use super::draft::{Draft, DraftFormula};
use super::plan::{root_sort, sight, Plan};
use super::random::Random;
use super::tree::{least_dividing, Grower, Leaf, Tree, WITHOUT_DIVISION};
use crate::formula::*;
use crate::table::*;

/// What is to be had of ÷ and mod in a formula.
#[derive(Clone, Copy)]
enum Wanted {
    Nothing,
    /// Anywhere.
    Division,
    /// Under bool alone.
    UnderBool,
    /// In a side alone that is never read: right of ⊥ ∧, ⊥ ⇒ or ⊤ ∨.
    Unread,
}

/// A small machine, in one of three cases with 64 identifiers, and its formulas.
pub fn told_apart(random: &mut Random) -> Draft {
    let size = random.pick(&[2, 3, 3, 6]);
    let mut plan = Plan::any(random, size);
    plan.nodes = 0;
    if random.one_in(3) {
        plan.constants = Table::MOST_IDENTIFIERS - plan.other_identifiers();
    }
    let mut draft = plan.draft(random);
    let mut left = Table::MOST_NODES - draft.nodes();
    for place in 0..draft.formulas.len() {
        let tree = formula(&draft, &draft.formulas[place], left + 1, random);
        left = left + 1 - tree.nodes();
        draft.formulas[place].tree = tree;
    }
    draft
}

/// A formula in this one's place, of at most so many nodes.
fn formula(draft: &Draft, old: &DraftFormula, most: usize, random: &mut Random) -> Tree {
    let &DraftFormula {
        tag,
        event,
        identifier,
        ..
    } = old;
    let mut seen = sight(draft, tag, event, identifier);
    let unchanged = |leaf: &Leaf| leaf.operator == IDENTIFIER && leaf.identifier == identifier;
    if tag == BECOMES_EQUAL && seen.iter().any(unchanged) && random.one_in(4) {
        return Tree::leaf(IDENTIFIER, identifier);
    }
    if tag == ABSTRACT_INVARIANT || tag == CONCRETE_INVARIANT {
        narrow(draft, &mut seen, random);
    } else if draft.identifiers.len() == Table::MOST_IDENTIFIERS && random.one_in(3) {
        let ends = [1, Table::MOST_IDENTIFIERS as i32];
        seen.retain(|leaf| ends.contains(&leaf.identifier));
    }
    let wanted = random.pick(&[
        Wanted::Nothing,
        Wanted::Nothing,
        Wanted::Division,
        Wanted::UnderBool,
        Wanted::Unread,
    ]);
    let sort = root_sort(draft, tag, identifier);
    let size = random.pick(&[1, 3, 5, 9, 13]).max(wanted.least(sort));
    if size > most {
        return Grower::new(random, &seen).grow(sort, 1);
    }
    wanted.grow(sort, size, &seen, random)
}

/// An invariant then mentions no variable, one, those of one kind, or any.
fn narrow(draft: &Draft, seen: &mut Vec<Leaf>, random: &mut Random) {
    let kind = |leaf: &Leaf| draft.identifiers[leaf.identifier as usize - 1][0];
    let variables: Vec<i32> = seen
        .iter()
        .filter(|leaf| is_variable(kind(leaf)))
        .map(|leaf| leaf.identifier)
        .collect();
    let one = random.maybe(&variables).unwrap_or(0);
    let kept = random.pick(&[
        CONSTANT,
        ABSTRACT_VARIABLE,
        CONCRETE_VARIABLE,
        SHARED_VARIABLE,
    ]);
    match random.below(4) {
        0 => {}
        1 | 2 => seen.retain(|leaf| kind(leaf) == CONSTANT || leaf.identifier == one),
        _ => seen.retain(|leaf| kind(leaf) == CONSTANT || kind(leaf) == kept),
    }
}

impl Wanted {
    /// The fewest nodes. No integer has a predicate below it, so that all its divisions are read.
    fn least(self, sort: Sort) -> usize {
        let around = match (self, sort) {
            (Wanted::Nothing, _) => return 1,
            (Wanted::Division, _) | (_, Sort::Integer) => 0,
            (Wanted::UnderBool, _) => 3,
            (Wanted::Unread, _) => 2,
        };
        least_dividing(sort) + around
    }

    fn grow(self, sort: Sort, size: usize, seen: &[Leaf], random: &mut Random) -> Tree {
        let division = random.pick(&[DIVIDE, MOD]);
        let (operator, left) = random.pick(&[(AND, BOTTOM), (IMPLIES, BOTTOM), (OR, TOP)]);
        let truth = random.pick(&[TRUE, FALSE]);
        let mut grower = Grower::new(random, seen);
        match (self, sort) {
            (Wanted::Nothing, _) => grower.with(WITHOUT_DIVISION).grow(sort, size),
            (_, Sort::Boolean) => {
                Tree::one(BOOL, self.grow(Sort::Predicate, size - 1, seen, random))
            }
            (Wanted::UnderBool, Sort::Predicate) => {
                let inner = grower.grow_dividing(division, Sort::Boolean, size - 2);
                Tree::two(EQUAL, inner, Tree::leaf(truth, 0))
            }
            (Wanted::Unread, Sort::Predicate) => {
                let right = grower.grow_dividing(division, Sort::Predicate, size - 2);
                Tree::two(operator, Tree::leaf(left, 0), right)
            }
            _ => grower.grow_dividing(division, sort, size),
        }
    }
}
