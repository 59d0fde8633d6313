//! SMT-LIB scripts read by the standard alone: what they declare, and what their terms are worth.

use sifthorma::evaluate::Value;
use std::collections::{BTreeMap, BTreeSet};

/// A word or a list in parentheses. A word in bars is the same as without them.
#[derive(Clone, Debug)]
pub enum Term {
    Word(String),
    List(Vec<Term>),
}

/// The functions and reserved words of SMT-LIB that no script may declare.
const TAKEN: &str = "true false not and or => xor = distinct ite + - * div mod abs < <= > >= divisible
! _ as let exists forall match par BINARY DECIMAL HEXADECIMAL NUMERAL STRING
assert check-sat check-sat-assuming declare-const declare-datatype declare-fun declare-sort define-const define-fun
define-fun-rec define-sort echo exit get-model get-value get-info pop push reset set-info set-logic set-option";

/// The functions that terms apply.
const APPLIED: &str = "true false not and or => = ite + - * div < <=";

/// Integers that are tried for "exists" lie between minus this and this.
const TRIED: i128 = 300;

/// The values of names.
pub type Known = BTreeMap<String, Value>;

/// The names and bodies of defined functions.
pub type Functions = BTreeMap<String, (Vec<String>, Term)>;

/// The commands of a script. Panics where parentheses or bars don't close.
pub fn commands(script: &str) -> Vec<Term> {
    let mut open: Vec<Vec<Term>> = vec![vec![]];
    let mut rest = script.trim_start();
    while let Some(first) = rest.chars().next() {
        let end = match first {
            ';' => rest.find('\n').unwrap_or(rest.len()),
            '|' => rest[1..].find('|').expect("a second bar") + 2,
            '(' | ')' => 1,
            _ => {
                let ends = |c: char| c.is_whitespace() || "();|".contains(c);
                rest.find(ends).unwrap_or(rest.len())
            }
        };
        match first {
            ';' => {}
            '(' => open.push(vec![]),
            ')' => {
                let list = open.pop().expect("a list");
                let outer = open.last_mut().expect("an open parenthesis");
                outer.push(Term::List(list));
            }
            _ => {
                let word = Term::Word(rest[..end].trim_matches('|').to_string());
                open.last_mut().expect("a list").push(word);
            }
        }
        rest = rest[end..].trim_start();
    }
    assert_eq!(open.len(), 1, "a parenthesis isn't closed");
    open.remove(0)
}

impl Term {
    pub fn word(&self) -> &str {
        match self {
            Term::Word(word) => word,
            Term::List(_) => panic!("a list for a word: {self:?}"),
        }
    }

    pub fn list(&self) -> &[Term] {
        match self {
            Term::List(terms) => terms,
            Term::Word(_) => panic!("a word for a list: {self:?}"),
        }
    }

    /// The bound or formal names of a list of pairs, such as ((a Int) (b Int)).
    fn names(&self) -> Vec<String> {
        let pairs = self.list().iter().map(|pair| {
            let [name, sort] = pair.list() else {
                panic!("no pair: {pair:?}");
            };
            assert!(["Int", "Bool"].contains(&sort.word()), "{pair:?}");
            name.word().to_string()
        });
        pairs.collect()
    }
}

/// A script as far as it has been read.
#[derive(Default)]
pub struct Reading {
    pub functions: Functions,
    /// The declared names, since the last reset.
    declared: BTreeSet<String>,
    /// How often the script asks.
    pub questions: usize,
}

impl Reading {
    /// Reads a script: whatever a term mentions is declared before, and nothing is declared that is known already.
    pub fn of(script: &str) -> Reading {
        let mut reading = Reading::default();
        for command in commands(script) {
            let parts = command.list();
            match (parts[0].word(), &parts[1..]) {
                ("set-option" | "set-logic", [_, ..]) => {}
                ("define-fun", [name, formal, _, body]) => reading.define(name, formal, body),
                ("declare-const", [name, sort]) => {
                    assert!(["Int", "Bool"].contains(&sort.word()));
                    reading.declare(name.word());
                }
                ("assert", [term]) => reading.check(term, &[]),
                ("check-sat", []) => reading.questions += 1,
                ("reset", []) => {
                    reading.declared.clear();
                    reading.functions.clear();
                }
                _ => panic!("{command:?}"),
            }
        }
        reading
    }

    fn is_known(&self, name: &str) -> bool {
        self.declared.contains(name) || self.functions.contains_key(name)
    }

    fn declare(&mut self, name: &str) {
        let taken = TAKEN.split_whitespace().any(|word| word == name);
        assert!(!taken && !self.is_known(name), "`{name}` is known already");
        self.declared.insert(name.to_string());
    }

    fn define(&mut self, name: &Term, formal: &Term, body: &Term) {
        let formal = formal.names();
        self.check(body, &formal);
        let function = (formal, body.clone());
        self.functions.insert(name.word().to_string(), function);
    }

    fn check(&self, term: &Term, bound: &[String]) {
        match term {
            Term::Word(word) => {
                let number = word.parse::<i128>().is_ok();
                let applied = APPLIED.split_whitespace().any(|function| function == word);
                let known = bound.contains(word) || self.is_known(word);
                assert!(number || applied || known, "`{word}` isn't declared");
            }
            Term::List(terms) => match &terms[..] {
                [Term::Word(word), names, body] if word == "exists" => {
                    self.check(body, &[bound, &names.names()].concat());
                }
                _ => terms.iter().for_each(|term| self.check(term, bound)),
            },
        }
    }
}

/// The value of a term.
pub fn value(term: &Term, known: &Known, functions: &Functions) -> Value {
    let terms = match term {
        Term::Word(word) => return word_value(word, known),
        Term::List(terms) => terms,
    };
    let function = terms[0].word();
    if function == "exists" {
        return Value::Truth(some_value(terms, known, functions));
    }
    if function == "ite" {
        let place = if value(&terms[1], known, functions) == Value::Truth(true) {
            2
        } else {
            3
        };
        return value(&terms[place], known, functions);
    }
    let operands: Vec<Value> = terms[1..]
        .iter()
        .map(|term| value(term, known, functions))
        .collect();
    match functions.get(function) {
        Some((formal, body)) => {
            let known = formal.iter().cloned().zip(operands).collect();
            value(body, &known, functions)
        }
        None => applied(function, &operands),
    }
}

fn word_value(word: &str, known: &Known) -> Value {
    match word {
        "true" => Value::Truth(true),
        "false" => Value::Truth(false),
        _ => match word.parse() {
            Ok(integer) => Value::Integer(integer),
            Err(_) => known[word],
        },
    }
}

/// The functions of SMT-LIB's Core and Ints. The remainder of div is never negative.
fn applied(function: &str, operands: &[Value]) -> Value {
    use Value::{Integer, Truth};
    match (function, operands) {
        ("not", [Truth(a)]) => Truth(!a),
        ("and", [Truth(a), Truth(b)]) => Truth(*a && *b),
        ("or", [Truth(a), Truth(b)]) => Truth(*a || *b),
        ("=>", [Truth(a), Truth(b)]) => Truth(!a || *b),
        ("=", [Truth(a), Truth(b)]) => Truth(a == b),
        ("=", [Integer(a), Integer(b)]) => Truth(a == b),
        ("<", [Integer(a), Integer(b)]) => Truth(a < b),
        ("<=", [Integer(a), Integer(b)]) => Truth(a <= b),
        ("-", [Integer(a)]) => Integer(-a),
        ("+", [Integer(a), Integer(b)]) => Integer(a + b),
        ("-", [Integer(a), Integer(b)]) => Integer(a - b),
        ("*", [Integer(a), Integer(b)]) => Integer(a * b),
        ("div", [Integer(a), Integer(b)]) => Integer(a.div_euclid(*b)),
        _ => panic!("({function} {operands:?}) isn't well sorted"),
    }
}

/// Whether some value of those that are tried meets the body of (exists ((name sort)) body).
fn some_value(terms: &[Term], known: &Known, functions: &Functions) -> bool {
    let [_, bound, body] = terms else {
        panic!("{terms:?}");
    };
    let pair = bound.list()[0].list();
    let tried: Vec<Value> = match pair[1].word() {
        "Bool" => vec![Value::Truth(false), Value::Truth(true)],
        _ => (-TRIED..=TRIED).map(Value::Integer).collect(),
    };
    let mut known = known.clone();
    tried.into_iter().any(|one| {
        known.insert(pair[0].word().to_string(), one);
        value(body, &known, functions) == Value::Truth(true)
    })
}
