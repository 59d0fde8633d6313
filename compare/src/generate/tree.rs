//! Random formulas of a given sort and an exact number of nodes.

use super::random::Random;
use crate::formula::*;

/// A formula before its nodes are numbered. `value` is b of operators 1 to 3.
#[derive(Clone, Debug)]
pub struct Tree {
    pub operator: i32,
    pub value: i32,
    pub operands: Vec<Tree>,
}

impl Tree {
    pub fn leaf(operator: i32, value: i32) -> Tree {
        Tree {
            operator,
            value,
            operands: vec![],
        }
    }

    pub fn one(operator: i32, operand: Tree) -> Tree {
        Tree {
            operator,
            value: 0,
            operands: vec![operand],
        }
    }

    pub fn two(operator: i32, left: Tree, right: Tree) -> Tree {
        Tree {
            operator,
            value: 0,
            operands: vec![left, right],
        }
    }

    /// The number of its nodes.
    pub fn nodes(&self) -> usize {
        1 + self.operands.iter().map(Tree::nodes).sum::<usize>()
    }
}

/// An identifier or after value that a formula may mention.
#[derive(Clone, Copy, Debug)]
pub struct Leaf {
    pub operator: i32,
    pub identifier: i32,
    pub sort: Sort,
}

/// The fewest nodes of a formula with ÷ or mod.
pub fn least_dividing(sort: Sort) -> usize {
    match sort {
        Sort::Integer => 3,
        Sort::Predicate => 5,
        Sort::Boolean => 6,
    }
}

/// How the nodes of a pair are shared between its sides.
#[derive(Clone, Copy, Debug)]
enum Shape {
    LeftHeavy,
    RightHeavy,
    Balanced,
    Mixed,
}

/// Integer operators of a formula: with both ÷ and mod, one of them, or none.
const INTEGERS: [&[i32]; 6] = [
    &[PLUS, MINUS, TIMES, DIVIDE, MOD],
    &[PLUS, MINUS, TIMES, DIVIDE, MOD],
    &[PLUS, MINUS, TIMES, DIVIDE],
    &[PLUS, MINUS, TIMES, MOD],
    WITHOUT_DIVISION,
    WITHOUT_DIVISION,
];

pub const WITHOUT_DIVISION: &[i32] = &[PLUS, MINUS, TIMES];

/// Grows formulas of one shape from what they may mention.
pub struct Grower<'a> {
    random: &'a mut Random,
    sight: &'a [Leaf],
    shape: Shape,
    integers: &'static [i32],
}

impl Grower<'_> {
    pub fn new<'a>(random: &'a mut Random, sight: &'a [Leaf]) -> Grower<'a> {
        let shapes = [
            Shape::LeftHeavy,
            Shape::RightHeavy,
            Shape::Balanced,
            Shape::Mixed,
        ];
        let shape = random.pick(&shapes);
        let integers = random.pick(&INTEGERS);
        Grower {
            random,
            sight,
            shape,
            integers,
        }
    }

    /// The same with these integer operators.
    pub fn with(self, integers: &'static [i32]) -> Self {
        Grower { integers, ..self }
    }

    /// A formula with exactly so many nodes, at least one.
    pub fn grow(&mut self, sort: Sort, size: usize) -> Tree {
        match (sort, size) {
            (_, 1) => self.leaf(sort),
            (Sort::Boolean, _) => Tree::one(BOOL, self.grow(Sort::Predicate, size - 1)),
            (Sort::Integer, 2) => Tree::one(NEGATION, self.leaf(sort)),
            (Sort::Predicate, 2) => Tree::one(NOT, self.leaf(sort)),
            (Sort::Integer, _) => self.grow_integer(size),
            (Sort::Predicate, _) => self.grow_predicate(size),
        }
    }

    fn grow_integer(&mut self, size: usize) -> Tree {
        if self.random.one_in(6) {
            return Tree::one(NEGATION, self.grow(Sort::Integer, size - 1));
        }
        let operator = self.random.pick(self.integers);
        self.pair(operator, Sort::Integer, size)
    }

    /// A formula with this ÷ or mod in it, of so many nodes, which are enough.
    pub fn grow_dividing(&mut self, division: i32, sort: Sort, size: usize) -> Tree {
        match sort {
            Sort::Integer => self.pair(division, Sort::Integer, size),
            Sort::Boolean => Tree::one(
                BOOL,
                self.grow_dividing(division, Sort::Predicate, size - 1),
            ),
            Sort::Predicate => {
                // Half of those that can be are larger on the side that divides.
                let more = if self.random.one_in(2) { size - 5 } else { 0 };
                let divided = self.pair(division, Sort::Integer, 3 + more);
                let other = self.grow(Sort::Integer, size - 4 - more);
                let operator = self.random.pick(&[EQUAL, LESS, AT_MOST]);
                match self.random.one_in(2) {
                    true => Tree::two(operator, divided, other),
                    false => Tree::two(operator, other, divided),
                }
            }
        }
    }

    fn grow_predicate(&mut self, size: usize) -> Tree {
        match self.random.below(10) {
            0 => Tree::one(NOT, self.grow(Sort::Predicate, size - 1)),
            1 | 2 => self.pair(EQUAL, Sort::Integer, size),
            3 => self.pair(EQUAL, Sort::Boolean, size),
            4 => self.pair(LESS, Sort::Integer, size),
            5 => self.pair(AT_MOST, Sort::Integer, size),
            _ => {
                let operator = self.random.pick(&[AND, OR, IMPLIES, EQUIVALENT]);
                self.pair(operator, Sort::Predicate, size)
            }
        }
    }

    fn pair(&mut self, operator: i32, sort: Sort, size: usize) -> Tree {
        let rest = size - 1;
        let left = match self.shape {
            Shape::LeftHeavy => rest - 1,
            Shape::RightHeavy => 1,
            Shape::Balanced => rest / 2,
            Shape::Mixed => self.random.between(1, rest - 1),
        };
        let left_tree = self.grow(sort, left);
        let right_tree = self.grow(sort, rest - left);
        Tree::two(operator, left_tree, right_tree)
    }

    fn leaf(&mut self, sort: Sort) -> Tree {
        let seen: Vec<Leaf> = self
            .sight
            .iter()
            .copied()
            .filter(|leaf| leaf.sort == sort)
            .collect();
        if !seen.is_empty() && !self.random.one_in(4) {
            // The lowest and the highest number more often than others.
            let any = self.random.pick(&seen);
            let leaf = self
                .random
                .pick(&[any, any, any, seen[0], seen[seen.len() - 1]]);
            return Tree::leaf(leaf.operator, leaf.identifier);
        }
        match sort {
            Sort::Integer => Tree::leaf(LITERAL, self.literal()),
            Sort::Boolean => Tree::leaf(self.random.pick(&[TRUE, FALSE]), 0),
            Sort::Predicate => Tree::leaf(self.random.pick(&[TOP, BOTTOM]), 0),
        }
    }

    fn literal(&mut self) -> i32 {
        match self.random.below(8) {
            0 => self.random.pick(&[i32::MIN, i32::MAX, -1, 1_000_000_000]),
            1 | 2 => 0,
            _ => self.random.below(21) as i32 - 10,
        }
    }
}
