//! Every operator over operands of every class, and formulas as deep as they can be, in every place that a replay reads: one
//! table and log each.

use super::batch::Batch;
use crate::formula::*;
use crate::generate::draft::{Draft, DraftFormula};
use crate::generate::random::Random;
use crate::generate::tree::Tree;
use crate::rows::{bytes_of, Row};
use crate::table::*;

/// Constants 7, 0 and −1; a boolean variable that becomes TRUE, an integer one that becomes 0 and then 7.
const IDENTIFIERS: [[i32; 3]; 5] = [
    [CONSTANT, INTEGER, 0],
    [CONSTANT, INTEGER, 0],
    [CONSTANT, INTEGER, 0],
    [CONCRETE_VARIABLE, BOOLEAN, 0],
    [SHARED_VARIABLE, INTEGER, 0],
];

const EVENTS: [[i32; 3]; 3] = [
    [ABSTRACT, INITIALISATION, 0],
    [CONCRETE, INITIALISATION, 0],
    [CONCRETE, ANTICIPATED, 0],
];

const FIRST: i32 = 2;
const LATER: i32 = 3;
const TRUTH: i32 = 4;
const NUMBER: i32 = 5;

/// Where a formula is read: tag, event and variable.
type Place = (i32, i32, i32);

const PLACES: [Place; 6] = [
    (AXIOM, 0, 0),
    (GUARD, LATER, 0),
    (BECOMES_EQUAL, FIRST, TRUTH),
    (BECOMES_EQUAL, LATER, TRUTH),
    (BECOMES_SUCH_THAT, FIRST, TRUTH),
    (BECOMES_SUCH_THAT, LATER, TRUTH),
];

/// Both families below.
pub fn whole_family() -> Vec<Batch> {
    [family(), deep_family()].concat()
}

/// Every operator in every place.
pub fn family() -> Vec<Batch> {
    everywhere(&PLACES, &integers(), &predicates())
}

/// The deepest formulas in every place.
pub fn deep_family() -> Vec<Batch> {
    everywhere(&PLACES, &deep_integers(), &deep_predicates())
}

/// Every operator in the places that a press reads.
pub fn pressed() -> Vec<Batch> {
    everywhere(&pressed_places(), &integers(), &predicates())
}

/// The deepest formulas in those places.
pub fn deep_pressed() -> Vec<Batch> {
    everywhere(&pressed_places(), &deep_integers(), &deep_predicates())
}

/// All but the actions of the initialisation.
fn pressed_places() -> Vec<Place> {
    let places = PLACES.into_iter().filter(|place| place.1 != FIRST);
    places.collect()
}

/// Each predicate in each place, and each integer compared there and as what the integer variable becomes.
fn everywhere(places: &[Place], integers: &[Tree], predicates: &[Tree]) -> Vec<Batch> {
    let compared = |tree: &Tree| Tree::two(AT_MOST, tree.clone(), literal(0));
    let compared = integers.iter().map(compared);
    let mut batches = Vec::new();
    for predicate in predicates.iter().cloned().chain(compared) {
        for &(tag, event, identifier) in places {
            let tree = match tag {
                BECOMES_EQUAL => Tree::one(BOOL, predicate.clone()),
                _ => predicate.clone(),
            };
            batches.push(with((tag, event, identifier), tree));
        }
    }
    for tree in integers {
        batches.push(with((BECOMES_EQUAL, LATER, NUMBER), tree.clone()));
    }
    batches
}

/// The table with this formula, and a log that is a run if it allows it.
fn with((tag, event, identifier): Place, tree: Tree) -> Batch {
    let formula = |tag, event, identifier, tree| DraftFormula {
        tag,
        event,
        identifier,
        tree,
    };
    let mut formulas = vec![formula(tag, event, identifier, tree)];
    let others = [
        (1, NUMBER, literal(0)),
        (FIRST, TRUTH, Tree::leaf(TRUE, 0)),
        (FIRST, NUMBER, literal(0)),
        (LATER, NUMBER, literal(7)),
    ];
    for (other, variable, tree) in others {
        if (other, variable) != (event, identifier) {
            formulas.push(formula(BECOMES_EQUAL, other, variable, tree));
        }
    }
    let draft = Draft {
        identifiers: IDENTIFIERS.to_vec(),
        events: EVENTS.to_vec(),
        formulas,
    };
    Batch {
        table: bytes_of(&draft.rows(&mut Random::new(0))),
        logs: vec![log()],
    }
}

fn log() -> Vec<u8> {
    let first = [(1, 7), (2, 0), (3, -1), (TRUTH, 1), (NUMBER, 0)];
    let later = [(TRUTH, 1), (NUMBER, 7)];
    let mut rows = Vec::new();
    for (event, values) in [(FIRST, &first[..]), (LATER, &later[..])] {
        rows.push(Row::new(90, event, 0, 0));
        let values = values.iter();
        rows.extend(values.map(|&(identifier, value)| Row::new(91, identifier, value, 0)));
    }
    bytes_of(&rows)
}

/// Every integer operator over every class of operands.
fn integers() -> Vec<Tree> {
    let operands = operands();
    let mut all = operands.clone();
    all.extend(operands.iter().map(|one| Tree::one(NEGATION, one.clone())));
    for operator in [PLUS, MINUS, TIMES, DIVIDE, MOD] {
        all.extend(pairs(operator, &operands));
    }
    all
}

/// Every predicate operator over every class of operands.
fn predicates() -> Vec<Tree> {
    let (operands, truths) = (operands(), truths());
    let booleans = truths.iter().map(|one| Tree::one(BOOL, one.clone()));
    let booleans: Vec<Tree> = booleans.collect();
    let mut all = truths.clone();
    all.extend(truths.iter().map(|one| Tree::one(NOT, one.clone())));
    for operator in [EQUAL, LESS, AT_MOST] {
        all.extend(pairs(operator, &operands));
    }
    all.extend(pairs(EQUAL, &booleans));
    for operator in [AND, OR, IMPLIES, EQUIVALENT] {
        all.extend(pairs(operator, &truths));
    }
    all
}

fn pairs(operator: i32, operands: &[Tree]) -> Vec<Tree> {
    let pair = |left: &Tree, right: &Tree| Tree::two(operator, left.clone(), right.clone());
    let left = operands.iter();
    left.flat_map(|left| operands.iter().map(move |right| pair(left, right)))
        .collect()
}

/// 7, 0, −1, the ends of 64 bits, one above, 0 with a part above, a term without value, and one below.
fn operands() -> Vec<Tree> {
    let constant = |number| Tree::leaf(IDENTIFIER, number);
    let big = || Tree::two(TIMES, literal(i32::MIN), literal(i32::MIN));
    let outside = || Tree::two(PLUS, big(), big());
    let lowest = || Tree::two(TIMES, big(), literal(-2));
    vec![
        constant(1),
        constant(2),
        constant(3),
        lowest(),
        Tree::two(PLUS, Tree::two(PLUS, big(), constant(3)), big()),
        outside(),
        Tree::two(TIMES, constant(2), outside()),
        Tree::two(MOD, constant(1), constant(2)),
        Tree::two(PLUS, lowest(), constant(3)),
    ]
}

/// Truth values, and predicates with either fault.
fn truths() -> Vec<Tree> {
    let operands = operands();
    let compared = |place: usize| Tree::two(LESS, literal(0), operands[place].clone());
    vec![
        Tree::leaf(TOP, 0),
        Tree::leaf(BOTTOM, 0),
        compared(5),
        compared(7),
    ]
}

/// Operators one below the other, of one operand and of two; with what else the table has, 512 nodes aren't passed.
const CHAIN: usize = 500;
const PAIRS: usize = 250;

fn deep_integers() -> Vec<Tree> {
    let one = || Tree::leaf(IDENTIFIER, 1);
    vec![
        nested(CHAIN, one(), |tree| Tree::one(NEGATION, tree)),
        nested(PAIRS, one(), |tree| Tree::two(PLUS, tree, one())),
        nested(PAIRS, one(), |tree| Tree::two(PLUS, one(), tree)),
        nested(PAIRS, one(), |tree| Tree::two(DIVIDE, tree, one())),
        nested(PAIRS, one(), |tree| Tree::two(MOD, tree, one())),
        nested(PAIRS, one(), |tree| Tree::two(MOD, one(), tree)),
    ]
}

fn deep_predicates() -> Vec<Tree> {
    let top = || Tree::leaf(TOP, 0);
    let boolean = |tree| Tree::two(EQUAL, Tree::one(BOOL, tree), Tree::leaf(TRUE, 0));
    let right = |tree| Tree::two(EQUAL, Tree::leaf(TRUE, 0), Tree::one(BOOL, tree));
    vec![
        nested(CHAIN, top(), |tree| Tree::one(NOT, tree)),
        nested(PAIRS, top(), |tree| Tree::two(AND, tree, top())),
        nested(PAIRS, top(), |tree| Tree::two(AND, top(), tree)),
        nested(PAIRS, top(), |tree| Tree::two(EQUIVALENT, tree, top())),
        nested(PAIRS, top(), |tree| Tree::two(IMPLIES, top(), tree)),
        nested(CHAIN / 3, top(), boolean),
        nested(CHAIN / 3, top(), right),
    ]
}

fn nested(depth: usize, inner: Tree, around: impl Fn(Tree) -> Tree) -> Tree {
    (0..depth).fold(inner, |tree, _| around(tree))
}

fn literal(value: i32) -> Tree {
    Tree::leaf(LITERAL, value)
}
