//! Formulas whose terms reach and pass the ends of 64 bits, and that aren't defined, by the values that they mention.

mod two_faults;

use super::values::any_integer;
use crate::formula::*;
use crate::generate::random::Random;
use crate::generate::tree::{Leaf, Tree};
use crate::replay::term::{value, Answer, State};
use crate::table::Node;

/// How often values are tried with a formula, how many of them must be faulty, and how many formulas are tried.
const SAMPLES: usize = 24;
const FAULTS: usize = 4;
const FORMULAS: usize = 40;

/// What an operand is to be.
#[derive(Clone, Copy)]
enum Kind {
    Small,
    Zero,
    /// 1 or −1.
    Unit,
    /// Whatever an identifier or a literal is.
    Any,
    /// Not negative, or outside.
    Square,
    /// At an end of 64 bits or a little inside.
    End,
    /// 2⁶³ − 1
    Highest,
    /// −2⁶³
    Lowest,
    /// One past an end.
    Outside,
    /// −2⁶³ − 1 or less.
    Below,
    Undefined,
    /// Outside for some values of an identifier.
    MaybeOutside,
    /// Undefined for the value 0 of an identifier.
    MaybeUndefined,
    /// An operator whose operands may both be faulty.
    TwoFaults,
    /// 0, with a part that is or may be outside.
    ZeroOutside,
    /// mod of what its rule tells apart.
    Remainder,
    /// Two faults, or a fault and an operator that is undefined, by one value.
    BothFaults,
}

const KINDS: [Kind; 16] = [
    Kind::Small,
    Kind::Zero,
    Kind::End,
    Kind::Outside,
    Kind::Undefined,
    Kind::MaybeOutside,
    Kind::MaybeOutside,
    Kind::MaybeOutside,
    Kind::MaybeUndefined,
    Kind::MaybeUndefined,
    Kind::TwoFaults,
    Kind::TwoFaults,
    Kind::ZeroOutside,
    Kind::Remainder,
    Kind::BothFaults,
    Kind::BothFaults,
];

/// Dividends and divisors of mod.
const REMAINDERS: [(Kind, Kind); 25] = [
    (Kind::Any, Kind::Any),
    (Kind::Any, Kind::Any),
    (Kind::Any, Kind::Small),
    (Kind::Square, Kind::Any),
    (Kind::Square, Kind::Small),
    (Kind::Any, Kind::Unit),
    (Kind::Unit, Kind::Unit),
    (Kind::Unit, Kind::Unit),
    (Kind::Zero, Kind::Unit),
    (Kind::Zero, Kind::Any),
    (Kind::Zero, Kind::Any),
    (Kind::Any, Kind::Zero),
    (Kind::Highest, Kind::Unit),
    (Kind::Lowest, Kind::Unit),
    (Kind::Lowest, Kind::Unit),
    (Kind::Outside, Kind::Zero),
    (Kind::Outside, Kind::Any),
    (Kind::Outside, Kind::Small),
    (Kind::Below, Kind::Any),
    (Kind::Below, Kind::Small),
    (Kind::MaybeOutside, Kind::Any),
    (Kind::ZeroOutside, Kind::Small),
    (Kind::Any, Kind::Outside),
    (Kind::Unit, Kind::ZeroOutside),
    (Kind::Any, Kind::MaybeOutside),
];

const FAULTY: [Kind; 6] = [
    Kind::Outside,
    Kind::Outside,
    Kind::Undefined,
    Kind::MaybeOutside,
    Kind::MaybeUndefined,
    Kind::Remainder,
];

/// × and mod are in terms of certain kinds besides.
const ARITHMETIC: [i32; 7] = [PLUS, PLUS, MINUS, MINUS, TIMES, DIVIDE, MOD];

/// Grows formulas of what they may mention.
pub struct Terms<'a> {
    random: &'a mut Random,
    sight: &'a [Leaf],
}

/// What a formula is to be: its sort, the most nodes, and for how many of 24 values it must have a value, of 32 bits if it is an
/// integer, and true if it is a predicate.
#[derive(Clone, Copy)]
pub struct Wanted {
    pub sort: Sort,
    pub most: usize,
    pub often: usize,
}

/// A formula as it is wanted; most of them are faulty for some of the other values.
pub fn formula(wanted: Wanted, sight: &[Leaf], random: &mut Random) -> Tree {
    let Wanted { sort, most, often } = wanted;
    for _ in 0..FORMULAS {
        let depth = random.pick(&[1, 2, 2, 3, 3]);
        let tree = Terms { random, sight }.grow(sort, depth);
        if tree.nodes() > most {
            continue;
        }
        let answers = answers(&tree, sight, random);
        let met = answers.iter().filter(|&&one| is_wanted(sort, one)).count();
        let faulty = answers.iter().filter(|one| one.is_err()).count();
        if met >= often && (faulty >= FAULTS || random.one_in(6)) {
            return tree;
        }
    }
    plain(sort, sight, random)
}

fn is_wanted(sort: Sort, answer: Answer) -> bool {
    match sort {
        Sort::Integer => answer.is_ok_and(|value| i32::try_from(value).is_ok()),
        Sort::Boolean => answer.is_ok(),
        Sort::Predicate => answer == Ok(1),
    }
}

/// A leaf of this sort, ⊤ if it is a predicate.
fn plain(sort: Sort, sight: &[Leaf], random: &mut Random) -> Tree {
    let mut terms = Terms { random, sight };
    match sort {
        Sort::Integer => terms.integer_leaf(),
        Sort::Boolean => terms.boolean(0),
        Sort::Predicate => Tree::leaf(TOP, 0),
    }
}

/// What the formula gives for some values of all that it may mention.
fn answers(tree: &Tree, sight: &[Leaf], random: &mut Random) -> Vec<Answer> {
    let mut nodes = Vec::new();
    let root = add_nodes(tree, &mut nodes);
    let literals = nodes.iter().filter(|node| node.operator == LITERAL);
    let literals: Vec<i32> = literals.map(|node| node.b).collect();
    let mut state = State::default();
    let mut answers = Vec::new();
    for _ in 0..SAMPLES {
        for leaf in sight {
            let any = match leaf.sort {
                Sort::Integer => any_integer(&literals, &state.now[..8], random),
                _ => random.below(2) as i64,
            };
            let place = leaf.identifier as usize - 1;
            match leaf.operator {
                AFTER => state.after[place] = any,
                _ => state.now[place] = any,
            }
        }
        answers.push(value(&nodes, root, &state));
    }
    answers
}

/// Adds the tree's nodes, operands first, and gives the number of its root.
fn add_nodes(tree: &Tree, nodes: &mut Vec<Node>) -> i32 {
    let operands = tree.operands.iter().map(|one| add_nodes(one, nodes));
    let operands: Vec<i32> = operands.collect();
    nodes.push(Node {
        row: 0,
        operator: tree.operator,
        b: operands.first().copied().unwrap_or(tree.value),
        c: operands.get(1).copied().unwrap_or(0),
    });
    nodes.len() as i32
}

impl Terms<'_> {
    fn grow(&mut self, sort: Sort, depth: usize) -> Tree {
        match sort {
            Sort::Integer => self.integer(depth),
            Sort::Boolean => self.boolean(depth),
            Sort::Predicate => self.predicate(depth),
        }
    }

    fn integer(&mut self, depth: usize) -> Tree {
        if depth == 0 {
            return match self.random.one_in(2) {
                true => self.integer_leaf(),
                false => self.of_any_kind(),
            };
        }
        match self.random.below(7) {
            0 => Tree::one(NEGATION, self.operand(depth)),
            1 => self.integer_leaf(),
            _ => {
                let operator = self.random.pick(&ARITHMETIC);
                self.pair(operator, depth)
            }
        }
    }

    fn pair(&mut self, operator: i32, depth: usize) -> Tree {
        match self.random.below(10) {
            0 | 1 => self.two_faults(operator),
            2 | 3 => self.one_outside(operator),
            4 | 5 => self.both_faults(operator),
            _ => {
                let left = self.operand(depth);
                Tree::two(operator, left, self.operand(depth))
            }
        }
    }

    fn one_outside(&mut self, operator: i32) -> Tree {
        let (outside, other) = (self.maybe_outside(), self.integer_leaf());
        match self.random.one_in(2) {
            true => Tree::two(operator, outside, other),
            false => Tree::two(operator, other, outside),
        }
    }

    fn two_faults(&mut self, operator: i32) -> Tree {
        let (left, right) = (self.random.pick(&FAULTY), self.random.pick(&FAULTY));
        Tree::two(operator, self.of_kind(left), self.of_kind(right))
    }

    fn operand(&mut self, depth: usize) -> Tree {
        match self.random.one_in(2) {
            true => self.integer(depth - 1),
            false => self.of_any_kind(),
        }
    }

    fn of_any_kind(&mut self) -> Tree {
        let kind = self.random.pick(&KINDS);
        self.of_kind(kind)
    }

    fn of_kind(&mut self, kind: Kind) -> Tree {
        match kind {
            Kind::Small => literal(self.random.below(21) as i32 - 10),
            Kind::Zero => literal(0),
            Kind::Unit => literal(self.random.pick(&[1, -1])),
            Kind::Any => self.integer_leaf(),
            Kind::Square => {
                let leaf = self.integer_leaf();
                Tree::two(TIMES, leaf.clone(), leaf)
            }
            Kind::End => self.end(),
            Kind::Highest => self.highest(),
            Kind::Lowest => self.lowest(),
            Kind::Outside => self.outside(),
            Kind::Below => match self.random.one_in(2) {
                true => Tree::two(MINUS, self.lowest(), literal(1)),
                false => Tree::two(TIMES, big(), literal(-3)),
            },
            Kind::Undefined => self.divided(literal(0)),
            Kind::MaybeOutside => self.maybe_outside(),
            Kind::MaybeUndefined => {
                let divisor = self.integer_leaf();
                self.divided(divisor)
            }
            Kind::TwoFaults => {
                let operator = self.random.pick(&ARITHMETIC);
                self.two_faults(operator)
            }
            Kind::ZeroOutside => match self.random.one_in(2) {
                true => Tree::two(TIMES, literal(0), self.maybe_outside()),
                false => {
                    let outside = self.outside();
                    Tree::two(MINUS, outside.clone(), outside)
                }
            },
            Kind::Remainder => self.remainder(),
            Kind::BothFaults => self.deep_both_faults(),
        }
    }

    fn remainder(&mut self) -> Tree {
        let (dividend, divisor) = self.random.pick(&REMAINDERS);
        Tree::two(MOD, self.of_kind(dividend), self.of_kind(divisor))
    }

    fn divided(&mut self, divisor: Tree) -> Tree {
        let operator = self.random.pick(&[DIVIDE, MOD]);
        Tree::two(operator, self.integer_leaf(), divisor)
    }

    /// 2⁶³ − 1 or −2⁶³, or 2⁶².
    fn end(&mut self) -> Tree {
        match self.random.below(7) {
            0..=2 => self.highest(),
            3..=5 => self.lowest(),
            _ => big(),
        }
    }

    /// 2⁶³ − 1, by sums of 2⁶² or by factors.
    fn highest(&mut self) -> Tree {
        match self.random.below(4) {
            0 => Tree::two(PLUS, Tree::two(MINUS, big(), literal(1)), big()),
            1 => Tree::two(MINUS, big(), Tree::two(MINUS, literal(1), big())),
            2 => Tree::two(MINUS, literal(-1), self.lowest()),
            _ => {
                let factors = Tree::two(TIMES, literal(49), literal(859764727));
                Tree::two(TIMES, factors, literal(218934409))
            }
        }
    }

    /// −2⁶³
    fn lowest(&mut self) -> Tree {
        match self.random.below(3) {
            0 => Tree::two(TIMES, literal(-2), big()),
            1 => Tree::two(MINUS, Tree::one(NEGATION, big()), big()),
            _ => Tree::two(TIMES, big(), literal(-2)),
        }
    }

    /// 2⁶³ or −2⁶³ − 1
    fn outside(&mut self) -> Tree {
        match self.random.below(7) {
            0 => Tree::two(PLUS, self.highest(), literal(1)),
            1 => Tree::two(PLUS, literal(1), self.highest()),
            2 => Tree::two(MINUS, self.lowest(), literal(1)),
            3 => Tree::one(NEGATION, self.lowest()),
            4 => Tree::two(DIVIDE, self.lowest(), literal(-1)),
            5 => Tree::two(TIMES, big(), literal(2)),
            _ => Tree::two(PLUS, big(), big()),
        }
    }

    /// Terms that are outside for some values of what they mention, and that some value takes exactly to an end.
    fn maybe_outside(&mut self) -> Tree {
        let leaf = self.integer_leaf();
        let room = literal(self.random.pick(&[0, 1, 7, 1000]));
        match self.random.below(9) {
            0 => Tree::two(PLUS, Tree::two(MINUS, self.highest(), room), leaf),
            1 => Tree::two(PLUS, leaf, Tree::two(PLUS, self.lowest(), room)),
            2 => Tree::two(MINUS, Tree::two(PLUS, self.lowest(), room), leaf),
            3 => Tree::two(MINUS, leaf, Tree::two(MINUS, self.highest(), room)),
            4 => Tree::two(TIMES, big(), leaf),
            5 => {
                let square = Tree::two(TIMES, leaf.clone(), leaf);
                let factor = self.integer_leaf();
                Tree::two(TIMES, square, factor)
            }
            6 => {
                let square = Tree::two(TIMES, leaf.clone(), leaf);
                Tree::two(PLUS, square, big())
            }
            7 => {
                // mod of it is undefined, whatever the divisor is.
                let operator = self.random.pick(&[DIVIDE, MOD]);
                Tree::two(operator, self.lowest(), leaf)
            }
            _ => Tree::one(NEGATION, Tree::two(PLUS, self.lowest(), leaf)),
        }
    }

    fn boolean(&mut self, depth: usize) -> Tree {
        if depth > 0 && !self.random.one_in(6) {
            return Tree::one(BOOL, self.predicate(depth - 1));
        }
        let seen = self.seen(Sort::Boolean);
        match self.random.maybe(&seen) {
            Some(leaf) if !self.random.one_in(5) => Tree::leaf(leaf.operator, leaf.identifier),
            _ => Tree::leaf(self.random.pick(&[TRUE, FALSE]), 0),
        }
    }

    fn predicate(&mut self, depth: usize) -> Tree {
        if depth == 0 {
            return self.condition();
        }
        match self.random.below(18) {
            0 => Tree::one(NOT, self.predicate(depth - 1)),
            1 | 2 => {
                let left = self.boolean(depth);
                Tree::two(EQUAL, left, self.boolean(depth))
            }
            3..=5 => {
                let operator = self.random.pick(&[EQUAL, LESS, AT_MOST]);
                self.pair(operator, depth)
            }
            6..=7 => self.connected(depth),
            8 => self.faulty_sides(),
            9 => self.guarded_remainder(),
            10 | 11 => self.open_remainder(),
            12..=14 => self.compared_faults(),
            _ => self.left_open(depth),
        }
    }

    /// A connective or an equality of booleans both of whose sides may be faulty.
    fn faulty_sides(&mut self) -> Tree {
        let operator = self.random.pick(&[AND, OR, IMPLIES, EQUIVALENT, EQUAL]);
        let (left, right) = (self.faulty_comparison(), self.faulty_comparison());
        match operator {
            EQUAL => Tree::two(operator, Tree::one(BOOL, left), Tree::one(BOOL, right)),
            _ => Tree::two(operator, left, right),
        }
    }

    fn faulty_comparison(&mut self) -> Tree {
        let operator = self.random.pick(&[EQUAL, LESS, AT_MOST]);
        let kind = self.random.pick(&FAULTY);
        let faulty = self.of_kind(kind);
        match self.random.one_in(2) {
            true => Tree::two(operator, faulty, self.integer_leaf()),
            false => Tree::two(operator, self.integer_leaf(), faulty),
        }
    }

    /// A remainder that is read where it is defined, or at one value more: 0 ≤ a ∧ 0 < b ⇒ a mod b = c.
    fn guarded_remainder(&mut self) -> Tree {
        let (a, b) = (self.integer_leaf(), self.integer_leaf());
        let lowest = literal(self.random.pick(&[0, 0, 0, -1]));
        let dividend = Tree::two(AT_MOST, lowest, a.clone());
        let below = self.random.pick(&[LESS, LESS, LESS, AT_MOST]);
        let divisor = Tree::two(below, literal(0), b.clone());
        let guard = match self.random.below(6) {
            0 => dividend,
            1 => divisor,
            _ => Tree::two(AND, dividend, divisor),
        };
        let operator = self.random.pick(&[EQUAL, LESS, AT_MOST]);
        let read = Tree::two(operator, Tree::two(MOD, a, b), self.integer_leaf());
        Tree::two(IMPLIES, guard, read)
    }

    /// A remainder of any sort that is read for some values only.
    fn open_remainder(&mut self) -> Tree {
        let condition = self.condition();
        let operator = self.random.pick(&[EQUAL, LESS, AT_MOST]);
        let read = Tree::two(operator, self.remainder(), self.integer_leaf());
        Tree::two(self.random.pick(&[IMPLIES, OR]), condition, read)
    }

    /// Any connective; ⇔ more often, since below it has no part.
    fn connected(&mut self, depth: usize) -> Tree {
        let connectives = [AND, OR, IMPLIES, EQUIVALENT, EQUIVALENT, EQUIVALENT];
        let operator = self.random.pick(&connectives);
        let left = self.predicate(depth - 1);
        Tree::two(operator, left, self.predicate(depth - 1))
    }

    /// A predicate that is read for some values only, and is true without that for others.
    fn left_open(&mut self, depth: usize) -> Tree {
        let condition = self.condition();
        let inner = self.predicate(depth - 1);
        match self.random.below(3) {
            0 => Tree::two(IMPLIES, condition, inner),
            1 => Tree::two(OR, condition, inner),
            _ => Tree::one(NOT, Tree::two(AND, condition, inner)),
        }
    }

    /// A comparison of leaves, or a truth value.
    fn condition(&mut self) -> Tree {
        let operator = self.random.pick(&[EQUAL, LESS, AT_MOST]);
        match self.random.below(6) {
            0 => Tree::leaf(self.random.pick(&[TOP, BOTTOM]), 0),
            1 => {
                let left = self.boolean(0);
                Tree::two(EQUAL, left, self.boolean(0))
            }
            _ => {
                let left = self.integer_leaf();
                Tree::two(operator, left, self.integer_leaf())
            }
        }
    }

    fn integer_leaf(&mut self) -> Tree {
        let seen = self.seen(Sort::Integer);
        match self.random.maybe(&seen) {
            Some(leaf) if !self.random.one_in(4) => Tree::leaf(leaf.operator, leaf.identifier),
            _ => literal(match self.random.below(8) {
                0 => self
                    .random
                    .pick(&[i32::MIN, i32::MIN + 1, i32::MAX - 1, i32::MAX]),
                1 => 0,
                2 => -1,
                _ => self.random.below(21) as i32 - 10,
            }),
        }
    }

    fn seen(&self, sort: Sort) -> Vec<Leaf> {
        let seen = self.sight.iter().filter(|leaf| leaf.sort == sort);
        seen.copied().collect()
    }
}

fn literal(value: i32) -> Tree {
    Tree::leaf(LITERAL, value)
}

/// 2⁶²
fn big() -> Tree {
    Tree::two(TIMES, literal(i32::MIN), literal(i32::MIN))
}
