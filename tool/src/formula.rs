//! Formulas by the operators of a table: read from spelled rows, and written as mathematics.

use crate::rows::Row;

/// The operators by their numbers in nodes and in spelled rows.
pub mod operator {
    pub const LITERAL: i64 = 1;
    pub const IDENTIFIER: i64 = 2;
    pub const AFTER: i64 = 3;
    pub const TRUE: i64 = 4;
    pub const FALSE: i64 = 5;
    pub const BOOL: i64 = 6;
    pub const PLUS: i64 = 10;
    pub const MINUS: i64 = 11;
    pub const TIMES: i64 = 12;
    pub const DIVIDE: i64 = 13;
    pub const MOD: i64 = 14;
    pub const NEGATION: i64 = 15;
    pub const EQUAL: i64 = 20;
    pub const LESS: i64 = 21;
    pub const AT_MOST: i64 = 22;
    pub const TOP: i64 = 30;
    pub const BOTTOM: i64 = 31;
    pub const NOT: i64 = 32;
    pub const AND: i64 = 33;
    pub const OR: i64 = 34;
    pub const IMPLIES: i64 = 35;
    pub const IFF: i64 = 36;
    /// In spelled rows alone: "some value of" and "some after value of" an identifier.
    pub const SOME_VALUE: i64 = 40;
    pub const SOME_AFTER: i64 = 41;
}

use operator::*;

/// An operator over its operands.
#[derive(Clone, Debug)]
pub struct Formula {
    pub operator: i64,
    /// A literal's value or an identifier's number, else 0.
    pub number: i64,
    pub operands: Vec<Formula>,
    /// Where in a text it is written, as an offset; 0 if it isn't from a text.
    pub at: usize,
}

/// An identifier, and whether its after value is meant.
#[derive(Clone, Copy, Debug, PartialEq, Eq, PartialOrd, Ord, Hash)]
pub struct Mention {
    pub identifier: usize,
    pub after: bool,
}

impl Formula {
    pub fn new(operator: i64, operands: Vec<Formula>, at: usize) -> Formula {
        Formula {
            operator,
            number: 0,
            operands,
            at,
        }
    }

    pub fn leaf(operator: i64, number: i64, at: usize) -> Formula {
        Formula {
            operator,
            number,
            operands: vec![],
            at,
        }
    }

    /// The formula in these rows 83, or nothing if they aren't one.
    pub fn spelled(rows: &[Row]) -> Option<Formula> {
        let mut rest = rows.iter();
        let formula = Formula::next(&mut rest)?;
        rest.next().is_none().then_some(formula)
    }

    fn next<'a>(rest: &mut impl Iterator<Item = &'a Row>) -> Option<Formula> {
        let row = rest.next()?;
        let mut formula = Formula::leaf(row.a, row.b, 0);
        for _ in 0..operand_count(row.a) {
            formula.operands.push(Formula::next(rest)?);
        }
        Some(formula)
    }

    /// The identifier or after value that a leaf mentions.
    pub fn mention(&self) -> Option<Mention> {
        self.naming(IDENTIFIER, AFTER)
    }

    /// The identifier or after value that "some value of" binds.
    pub fn bound(&self) -> Option<Mention> {
        self.naming(SOME_VALUE, SOME_AFTER)
    }

    /// The identifier that one of these operators names: its present value, or its after value.
    fn naming(&self, present: i64, after: i64) -> Option<Mention> {
        let named = [present, after].contains(&self.operator);
        named.then_some(Mention {
            identifier: self.number as usize,
            after: self.operator == after,
        })
    }

    /// What the formula mentions and doesn't bind, each once, in order.
    pub fn free(&self) -> Vec<Mention> {
        let mut mentions: Vec<Mention> = match self.mention() {
            Some(mention) => vec![mention],
            None => self.operands.iter().flat_map(Formula::free).collect(),
        };
        mentions.sort();
        mentions.dedup();
        mentions.retain(|&mention| self.bound() != Some(mention));
        mentions
    }
}

/// How many operands an operator takes.
pub fn operand_count(operator: i64) -> usize {
    match operator {
        LITERAL..=FALSE | TOP | BOTTOM => 0,
        BOOL | NEGATION | NOT | SOME_VALUE | SOME_AFTER => 1,
        _ => 2,
    }
}

/// The sign of an operator, as Event-B writes it.
pub fn sign(operator: i64) -> &'static str {
    match operator {
        TRUE => "TRUE",
        FALSE => "FALSE",
        BOOL => "bool",
        PLUS => "+",
        MINUS | NEGATION => "−",
        TIMES => "∗",
        DIVIDE => "÷",
        MOD => "mod",
        EQUAL => "=",
        LESS => "<",
        AT_MOST => "≤",
        TOP => "⊤",
        BOTTOM => "⊥",
        NOT => "¬",
        AND => "∧",
        OR => "∨",
        IMPLIES => "⇒",
        IFF => "⇔",
        _ => "?",
    }
}

/// How tightly an operator binds; operands that bind less tightly stand in parentheses.
fn tightness(formula: &Formula) -> u8 {
    match formula.operator {
        SOME_VALUE | SOME_AFTER => 0,
        IMPLIES | IFF => 1,
        AND | OR => 2,
        NOT => 3,
        EQUAL | LESS | AT_MOST => 4,
        PLUS | MINUS | NEGATION => 5,
        LITERAL if formula.number < 0 => 5,
        TIMES | DIVIDE | MOD => 6,
        _ => 7,
    }
}

/// The formula as Event-B writes it; read again it is the same formula.
pub fn written(formula: &Formula, name: &dyn Fn(usize) -> String) -> String {
    let operand = |n: usize| written(&formula.operands[n], name);
    let closed = |n: usize| format!("({})", operand(n));
    match formula.operator {
        LITERAL if formula.number < 0 => format!("−{}", formula.number.unsigned_abs()),
        LITERAL => formula.number.to_string(),
        IDENTIFIER => name(formula.number as usize),
        AFTER => name(formula.number as usize) + "'",
        BOOL => format!("bool({})", operand(0)),
        SOME_VALUE => format!("∃{}·{}", name(formula.number as usize), operand(0)),
        SOME_AFTER => format!("∃{}'·{}", name(formula.number as usize), operand(0)),
        NOT if formula.operands[0].operator == EQUAL => {
            let equation = &formula.operands[0];
            format!("{} ≠ {}", side(equation, 0, name), side(equation, 1, name))
        }
        NOT => match formula.operands[0].operator {
            NOT | TOP | BOTTOM if !is_unequal(&formula.operands[0]) => format!("¬{}", operand(0)),
            _ => format!("¬{}", closed(0)),
        },
        NEGATION => match tightness(&formula.operands[0]) {
            7 if formula.operands[0].operator != LITERAL => format!("−{}", operand(0)),
            _ => format!("−{}", closed(0)),
        },
        other => match operand_count(other) {
            0 => sign(other).to_string(),
            _ => {
                let (left, right) = (side(formula, 0, name), side(formula, 1, name));
                format!("{left} {} {right}", sign(other))
            }
        },
    }
}

/// Whether it is written with ≠.
fn is_unequal(formula: &Formula) -> bool {
    formula.operator == NOT && formula.operands[0].operator == EQUAL
}

/// The left (0) or right (1) side of a pair, in parentheses where it needs them.
fn side(pair: &Formula, n: usize, name: &dyn Fn(usize) -> String) -> String {
    let operand = &pair.operands[n];
    let (outer, inner) = (tightness(pair), tightness(operand));
    // to the left the same operator goes on, and with + and ∗ those of its line
    let goes_on = match pair.operator {
        AND | OR => operand.operator == pair.operator,
        PLUS | MINUS | TIMES | DIVIDE | MOD => {
            operand.operator != LITERAL && operand.operator != NEGATION
        }
        _ => false,
    };
    let open = inner > outer || (n == 0 && inner == outer && goes_on);
    let text = written(operand, name);
    match open {
        true => text,
        false => format!("({text})"),
    }
}
