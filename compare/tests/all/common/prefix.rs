//! Formulas in prefix order as words, and tables made of them.

use compare::formula::*;
use compare::generate::draft::{Draft, DraftFormula};
use compare::generate::random::Random;
use compare::generate::tree::Tree;
use compare::rows::bytes_of;

/// The operators by their words; numbers are literals, `i3` is identifier 3 and `i3'` its after value.
const WORDS: [(&str, i32); 19] = [
    ("TRUE", TRUE),
    ("FALSE", FALSE),
    ("bool", BOOL),
    ("+", PLUS),
    ("-", MINUS),
    ("*", TIMES),
    ("/", DIVIDE),
    ("mod", MOD),
    ("neg", NEGATION),
    ("=", EQUAL),
    ("<", LESS),
    ("<=", AT_MOST),
    ("true", TOP),
    ("false", BOTTOM),
    ("not", NOT),
    ("and", AND),
    ("or", OR),
    ("=>", IMPLIES),
    ("<=>", EQUIVALENT),
];

/// The formula that these words spell.
pub fn tree(words: &str) -> Tree {
    let mut words = words.split_whitespace();
    let tree = next_tree(&mut words);
    assert_eq!(words.next(), None, "words are left");
    tree
}

fn next_tree<'a>(words: &mut impl Iterator<Item = &'a str>) -> Tree {
    let word = words.next().expect("a word for each operand");
    if let Some(name) = word.strip_prefix('i') {
        let number = name.trim_end_matches('\'').parse().expect("a number");
        let operator = if name.ends_with('\'') {
            AFTER
        } else {
            IDENTIFIER
        };
        return Tree::leaf(operator, number);
    }
    let found = WORDS.iter().find(|one| one.0 == word);
    let Some(&(_, operator)) = found else {
        return Tree::leaf(LITERAL, word.parse().expect("a word that is known"));
    };
    match columns(operator) {
        Some(Columns::OneOperand) => Tree::one(operator, next_tree(words)),
        Some(Columns::TwoOperands) => {
            let left = next_tree(words);
            Tree::two(operator, left, next_tree(words))
        }
        _ => Tree::leaf(operator, 0),
    }
}

/// A row that names a root: tag, event or 0, identifier or 0, and the formula's words.
pub type Named<'a> = (i32, i32, i32, &'a str);

/// The table of these identifiers, events and formulas.
pub fn laid_out(identifiers: &[[i32; 3]], events: &[[i32; 3]], formulas: &[Named]) -> Vec<u8> {
    let formula = |&(tag, event, identifier, words): &Named| DraftFormula {
        tag,
        event,
        identifier,
        tree: tree(words),
    };
    let draft = Draft {
        identifiers: identifiers.to_vec(),
        events: events.to_vec(),
        formulas: formulas.iter().map(formula).collect(),
    };
    bytes_of(&draft.rows(&mut Random::new(0)))
}
