//! What provers answer: unsat, sat with values, or neither.

use crate::evaluate::{Value, Values};
use crate::formula::Mention;

#[derive(Clone, Debug, PartialEq, Eq)]
pub enum Answer {
    Unsat,
    /// Values of what was asked for; those that can't be read are left out.
    Sat(Values),
    /// Nothing, or the beginning of what was said instead.
    Neither(String),
}

/// The most characters that are kept of what is no answer.
const MOST_SAID: usize = 200;

/// The most parentheses in one another; values need three.
const DEEPEST: usize = 100;

/// An expression of parentheses, as provers print them.
#[derive(Debug)]
enum Expression {
    Word(String),
    List(Vec<Expression>),
}

/// The answer to a script with one check-sat and one get-value, which asks for these in their order.
pub fn answer(printed: &str, asked: &[Mention]) -> Answer {
    let mut lines = printed
        .lines()
        .map(str::trim)
        .filter(|line| !line.is_empty());
    match lines.next() {
        Some("unsat") => Answer::Unsat,
        Some("sat") => {
            let rest = printed.split_once("sat").map_or("", |(_, rest)| rest);
            Answer::Sat(values(rest, asked))
        }
        other => {
            let said = other.unwrap_or("").chars().take(MOST_SAID);
            Answer::Neither(said.collect())
        }
    }
}

/// The values in a prover's list of pairs, which has the order of what was asked.
fn values(text: &str, asked: &[Mention]) -> Values {
    let words = words(text);
    let pairs = match expression(&words, &mut 0, DEEPEST) {
        Some(Expression::List(pairs)) => pairs,
        _ => vec![],
    };
    let value = |pair: &Expression| match pair {
        Expression::List(pair) => read_value(pair.get(1)?),
        Expression::Word(_) => None,
    };
    let pairs = asked.iter().zip(&pairs);
    pairs
        .filter_map(|(&mention, pair)| Some((mention, value(pair)?)))
        .collect()
}

/// Parentheses and words; a word in bars may have blanks.
fn words(text: &str) -> Vec<String> {
    let mut words = Vec::new();
    let mut rest = text.trim_start();
    while let Some(first) = rest.chars().next() {
        let length = match first {
            '(' | ')' => 1,
            '|' => rest[1..].find('|').map_or(rest.len(), |end| end + 2),
            _ => {
                let end = rest.find(|c: char| c.is_whitespace() || "()".contains(c));
                end.unwrap_or(rest.len())
            }
        };
        words.push(rest[..length].to_string());
        rest = rest[length..].trim_start();
    }
    words
}

/// The expression at this place, nested at most so deep.
fn expression(words: &[String], place: &mut usize, depth: usize) -> Option<Expression> {
    let word = words.get(*place)?;
    let inside = depth.checked_sub(1)?;
    *place += 1;
    if word != "(" {
        return Some(Expression::Word(word.clone()));
    }
    let mut members = Vec::new();
    while words.get(*place)? != ")" {
        members.push(expression(words, place, inside)?);
    }
    *place += 1;
    Some(Expression::List(members))
}

/// true, false, a number or (- number).
fn read_value(expression: &Expression) -> Option<Value> {
    match expression {
        Expression::Word(word) => match word.as_str() {
            "true" => Some(Value::Truth(true)),
            "false" => Some(Value::Truth(false)),
            digits => digits.parse().ok().map(Value::Integer),
        },
        Expression::List(members) => match &members[..] {
            [Expression::Word(minus), Expression::Word(digits)] if minus == "-" => {
                let integer: i128 = digits.parse().ok()?;
                Some(Value::Integer(-integer))
            }
            _ => None,
        },
    }
}
