//! Terms with two faults at once, or with one beside an operator that is undefined. Both come with one identifier's value x: for
//! 1 ≤ x there is neither, so that formulas with such terms can be true.

use super::{big, literal, Kind, Terms};
use crate::formula::*;
use crate::generate::tree::Tree;

/// What an operand is where x ≤ 0.
#[derive(Clone, Copy)]
enum Side {
    /// Outside, in most cases small otherwise.
    Outside,
    /// Outside, a large number otherwise.
    Large,
    /// Outside in a part, but exactly x.
    Exact,
    /// In some cases only for x = 0.
    Undefined,
    /// Above 0 otherwise.
    UndefinedDivisor,
    Negative,
    /// x itself.
    Plain,
    /// Any leaf, whatever x is.
    Fine,
}

/// Sides of any operator.
const ANY: [(Side, Side); 2] = [
    (Side::Outside, Side::Undefined),
    (Side::Undefined, Side::Outside),
];

/// Sides of ÷, which is undefined by the divisor, or would be by its exact value.
const QUOTIENTS: [(Side, Side); 13] = [
    (Side::Outside, Side::UndefinedDivisor),
    (Side::Outside, Side::UndefinedDivisor),
    (Side::Large, Side::UndefinedDivisor),
    (Side::Large, Side::UndefinedDivisor),
    (Side::Fine, Side::UndefinedDivisor),
    (Side::Fine, Side::UndefinedDivisor),
    (Side::Undefined, Side::Large),
    (Side::Undefined, Side::Large),
    (Side::Outside, Side::Plain),
    (Side::Large, Side::Plain),
    (Side::Exact, Side::Plain),
    (Side::Fine, Side::Exact),
    (Side::Fine, Side::Exact),
];

/// Sides of mod, which is undefined by the dividend too.
const REMAINDERS: [(Side, Side); 9] = [
    (Side::Outside, Side::UndefinedDivisor),
    (Side::Large, Side::UndefinedDivisor),
    (Side::Undefined, Side::Large),
    (Side::Undefined, Side::Exact),
    (Side::Large, Side::Plain),
    (Side::Exact, Side::Plain),
    (Side::Negative, Side::Large),
    (Side::Negative, Side::Large),
    (Side::Negative, Side::Exact),
];

/// The same by operands that no identifier's value changes.
const CLOSED: [(Kind, i32, Kind); 14] = [
    (Kind::Outside, DIVIDE, Kind::Zero),
    (Kind::Outside, DIVIDE, Kind::Zero),
    (Kind::MaybeOutside, DIVIDE, Kind::Zero),
    (Kind::Below, MOD, Kind::Zero),
    (Kind::Outside, MOD, Kind::Small),
    (Kind::Any, DIVIDE, Kind::ZeroOutside),
    (Kind::Any, DIVIDE, Kind::ZeroOutside),
    (Kind::Lowest, MOD, Kind::Outside),
    (Kind::Outside, DIVIDE, Kind::Undefined),
    (Kind::Outside, MOD, Kind::Undefined),
    (Kind::Any, DIVIDE, Kind::Undefined),
    (Kind::Any, MOD, Kind::Undefined),
    (Kind::Undefined, DIVIDE, Kind::Outside),
    (Kind::Undefined, MOD, Kind::Outside),
];

const COMPARISONS: [i32; 3] = [EQUAL, LESS, AT_MOST];

impl Terms<'_> {
    /// The operator over two such sides, each below further operators or not.
    pub(super) fn both_faults(&mut self, operator: i32) -> Tree {
        let x = self.integer_leaf();
        let (left, right) = self.random.pick(match operator {
            DIVIDE => &QUOTIENTS[..],
            MOD => &REMAINDERS,
            _ => &ANY,
        });
        let left = self.side(left, &x);
        let left = self.maybe_below(left, &x);
        let right = self.side(right, &x);
        let right = self.maybe_below(right, &x);
        Tree::two(operator, left, right)
    }

    /// An integer of this kind, with up to two operators more around it.
    pub(super) fn deep_both_faults(&mut self) -> Tree {
        let operators = [PLUS, MINUS, TIMES, DIVIDE, DIVIDE, MOD, MOD];
        let operator = self.random.pick(&operators);
        let x = self.integer_leaf();
        let mut tree = self.both_faults(operator);
        for _ in 0..self.random.below(3) {
            tree = self.below(tree, &x);
        }
        tree
    }

    /// Such a comparison of integers, or two with one fault each.
    pub(super) fn compared_faults(&mut self) -> Tree {
        let operator = self.random.pick(&COMPARISONS);
        match self.random.below(11) {
            0 | 1 => self.both_faults(operator),
            2..=4 => Tree::two(operator, self.deep_both_faults(), self.integer_leaf()),
            5 => Tree::one(NOT, self.both_faults(EQUAL)),
            6..=8 => {
                let connective = self.random.pick(&[AND, OR, IMPLIES, EQUIVALENT]);
                let operator = self.random.pick(&[EQUAL, EQUAL, connective, EQUIVALENT]);
                self.faults_apart(operator)
            }
            _ => self.open_faults(operator),
        }
    }

    /// A comparison of a quotient or remainder that is always faulty, read for some values only.
    fn open_faults(&mut self, operator: i32) -> Tree {
        let condition = self.condition();
        let (left, division, right) = self.random.pick(&CLOSED);
        let divided = Tree::two(division, self.of_kind(left), self.of_kind(right));
        let read = match self.random.one_in(2) {
            true => Tree::two(operator, divided, self.integer_leaf()),
            false => Tree::two(operator, self.integer_leaf(), divided),
        };
        Tree::two(self.random.pick(&[IMPLIES, OR]), condition, read)
    }

    /// An equality of booleans or a connective, with one fault on each side.
    fn faults_apart(&mut self, operator: i32) -> Tree {
        let x = self.integer_leaf();
        let (left, right) = self.random.pick(&ANY);
        let mut predicate = |side| {
            let comparison = self.random.pick(&COMPARISONS);
            let side = self.side(side, &x);
            let predicate = match self.random.one_in(2) {
                true => Tree::two(comparison, side, self.integer_leaf()),
                false => Tree::two(comparison, self.integer_leaf(), side),
            };
            match operator {
                EQUAL => Tree::one(BOOL, predicate),
                _ => predicate,
            }
        };
        let left = predicate(left);
        Tree::two(operator, left, predicate(right))
    }

    fn side(&mut self, side: Side, x: &Tree) -> Tree {
        let below = || Tree::two(MINUS, x.clone(), literal(1));
        match side {
            Side::Outside => self.small_outside(x),
            Side::Large => self.large_outside(x),
            Side::Exact => {
                let outside = Tree::two(PLUS, self.lowest(), below());
                let back = Tree::two(MINUS, outside, self.lowest());
                Tree::two(PLUS, back, literal(1))
            }
            Side::Undefined => match self.random.below(5) {
                0 => Tree::two(DIVIDE, self.integer_leaf(), x.clone()),
                1 => Tree::two(MOD, below(), literal(3)),
                2 => Tree::two(MOD, x.clone(), x.clone()),
                _ => Tree::two(MOD, literal(7), x.clone()),
            },
            Side::UndefinedDivisor => {
                let remainder = Tree::two(MOD, literal(7), x.clone());
                Tree::two(PLUS, remainder, literal(1))
            }
            Side::Negative => below(),
            Side::Plain => x.clone(),
            Side::Fine => self.integer_leaf(),
        }
    }

    /// 2⁶³ − x
    fn large_outside(&mut self, x: &Tree) -> Tree {
        Tree::one(NEGATION, Tree::two(PLUS, self.lowest(), x.clone()))
    }

    /// The same, brought down in most cases.
    fn small_outside(&mut self, x: &Tree) -> Tree {
        let large = self.large_outside(x);
        match self.random.below(6) {
            0 => large,
            1 => Tree::two(TIMES, literal(0), large),
            2 => Tree::two(TIMES, large, literal(0)),
            3 => Tree::two(MOD, large, literal(7)),
            _ => Tree::two(DIVIDE, large, big()),
        }
    }

    fn maybe_below(&mut self, tree: Tree, x: &Tree) -> Tree {
        match self.random.one_in(4) {
            true => self.below(tree, x),
            false => tree,
        }
    }

    /// Another operator around it, whose other operand may have a fault of its own.
    fn below(&mut self, tree: Tree, x: &Tree) -> Tree {
        let operator = self.random.pick(&[PLUS, MINUS, TIMES]);
        let side = self.random.pick(&[Side::Outside, Side::Undefined]);
        match self.random.below(7) {
            0 => Tree::one(NEGATION, tree),
            1 | 2 => Tree::two(operator, tree, self.integer_leaf()),
            3 | 4 => Tree::two(operator, self.integer_leaf(), tree),
            5 => Tree::two(operator, tree, self.side(side, x)),
            _ => Tree::two(operator, self.side(side, x), tree),
        }
    }
}
