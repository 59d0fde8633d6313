//! Reads formulas, with Event-B's priorities: ⇒ ⇔, then ∧ ∨, ¬, comparisons, + −, ∗ ÷ mod.

use crate::formula::operator::*;
use crate::formula::Formula;
use crate::notation::parse::Parser;
use crate::notation::token::Token;
use crate::notation::Mistake;

/// The most operators of a formula, and the most that stand in one another. A table takes 512 nodes.
const MOST: usize = 1000;
const DEEPEST: usize = 600;

const OPERAND: &str = "an operand: a name, a number, TRUE, FALSE, ⊤, ⊥, bool(..) or (..)";
const AFTER_FORMULA: &str = "an operator, a label or a keyword";

type Read<T> = Result<T, Mistake>;

impl Parser {
    /// The formula that begins here. What follows it is a label, a keyword or the end.
    pub fn formula(&mut self) -> Read<Formula> {
        (self.depth, self.size) = (0, 0);
        let formula = self.implication()?;
        match self.token() {
            Token::Sign("∈", _) => {
                let message = "`∈` (or `:`) stands only where names are declared, as sets are left out: write 0 ≤ x for x ∈ ℕ";
                Err(Mistake::new(self.at(), message))
            }
            Token::Sign(..) | Token::Number(_) => self.expected(AFTER_FORMULA),
            _ if self.at_name() => self.expected(AFTER_FORMULA),
            _ => Ok(formula),
        }
    }

    fn implication(&mut self) -> Read<Formula> {
        self.deeper()?;
        let left = self.junction()?;
        let formula = match self.sign_of(&[("⇒", IMPLIES), ("⇔", IFF)]) {
            None => left,
            Some((operator, at)) => {
                let right = self.junction()?;
                if let Some((_, at)) = self.sign_of(&[("⇒", IMPLIES), ("⇔", IFF)]) {
                    let message =
                        "⇒ and ⇔ don't follow one another: put one of them in parentheses";
                    return Err(Mistake::new(at, message));
                }
                self.pair(operator, left, right, at)?
            }
        };
        self.depth -= 1;
        Ok(formula)
    }

    /// Parts joined by ∧ alone, or by ∨ alone.
    fn junction(&mut self) -> Read<Formula> {
        let mut formula = self.negated()?;
        let mut joined_by = None;
        while let Some((operator, at)) = self.sign_of(&[("∧", AND), ("∨", OR)]) {
            if joined_by.is_some_and(|first| first != operator) {
                let message = "∧ and ∨ don't stand side by side: put one of them in parentheses";
                return Err(Mistake::new(at, message));
            }
            joined_by = Some(operator);
            let right = self.negated()?;
            formula = self.pair(operator, formula, right, at)?;
        }
        Ok(formula)
    }

    fn negated(&mut self) -> Read<Formula> {
        let at = self.at();
        if !self.take_sign("¬") {
            return self.comparison();
        }
        self.deeper()?;
        let operand = self.negated()?;
        self.depth -= 1;
        self.counted(Formula::new(NOT, vec![operand], at))
    }

    /// = < ≤, and those that are made of them: ≠ is ¬ of =, > and ≥ are < and ≤ with the sides exchanged.
    fn comparison(&mut self) -> Read<Formula> {
        const NOT_EQUAL: i64 = -EQUAL;
        const MORE: i64 = -LESS;
        const AT_LEAST: i64 = -AT_MOST;
        let signs = [
            ("=", EQUAL),
            ("<", LESS),
            ("≤", AT_MOST),
            ("≠", NOT_EQUAL),
            (">", MORE),
            ("≥", AT_LEAST),
        ];
        let left = self.sum()?;
        let Some((operator, at)) = self.sign_of(&signs) else {
            return Ok(left);
        };
        let right = self.sum()?;
        if let Some((_, at)) = self.sign_of(&signs) {
            let message = "comparisons don't follow one another: write a < b ∧ b < c for a < b < c";
            return Err(Mistake::new(at, message));
        }
        match operator {
            NOT_EQUAL => {
                let equation = self.pair(EQUAL, left, right, at)?;
                self.counted(Formula::new(NOT, vec![equation], at))
            }
            MORE | AT_LEAST => self.pair(-operator, right, left, at),
            _ => self.pair(operator, left, right, at),
        }
    }

    /// Terms joined by + and −; a − before the first negates that term.
    fn sum(&mut self) -> Read<Formula> {
        let at = self.at();
        let mut formula = match self.take_sign("−") {
            true => self.negative(at)?,
            false => self.product(None)?,
        };
        while let Some((operator, at)) = self.sign_of(&[("+", PLUS), ("−", MINUS)]) {
            let right = self.product(None)?;
            formula = self.pair(operator, formula, right, at)?;
        }
        Ok(formula)
    }

    /// The term after a −, which belongs to a number that follows it at once.
    fn negative(&mut self, at: usize) -> Read<Formula> {
        if let Token::Number(digits) = self.token().clone() {
            let literal = self.literal(&format!("-{digits}"), at)?;
            return self.product(Some(literal));
        }
        let operand = self.product(None)?;
        self.counted(Formula::new(NEGATION, vec![operand], at))
    }

    /// Factors joined by ∗, ÷ and mod; the first may have been read.
    fn product(&mut self, first: Option<Formula>) -> Read<Formula> {
        let mut formula = match first {
            Some(first) => first,
            None => self.factor()?,
        };
        while let Some((operator, at)) = self.sign_of(&[("∗", TIMES), ("÷", DIVIDE), ("mod", MOD)])
        {
            let right = self.factor()?;
            formula = self.pair(operator, formula, right, at)?;
        }
        Ok(formula)
    }

    fn factor(&mut self) -> Read<Formula> {
        let at = self.at();
        match self.token().clone() {
            Token::Number(digits) => self.literal(&digits, at),
            Token::Sign("⊤", _) => self.plain(TOP),
            Token::Sign("⊥", _) => self.plain(BOTTOM),
            Token::Sign("(", _) => {
                self.step();
                let formula = self.implication()?;
                match self.take_sign(")") {
                    true => Ok(formula),
                    false => self.expected("`)` or an operator"),
                }
            }
            Token::Word(word) if word == "TRUE" => self.plain(TRUE),
            Token::Word(word) if word == "FALSE" => self.plain(FALSE),
            Token::Word(_) if self.take("bool") => {
                if !self.take_sign("(") {
                    return self.expected("`(` after `bool`");
                }
                let predicate = self.implication()?;
                if !self.take_sign(")") {
                    return self.expected("`)` or an operator");
                }
                self.counted(Formula::new(BOOL, vec![predicate], at))
            }
            Token::Word(_) => self.mention(),
            Token::Sign("−", _) => {
                self.expected("an operand (a negation goes in parentheses here)")
            }
            _ => self.expected(OPERAND),
        }
    }

    fn plain(&mut self, operator: i64) -> Read<Formula> {
        let at = self.at();
        self.step();
        self.counted(Formula::leaf(operator, 0, at))
    }

    /// A name, with a prime where its after value is meant.
    fn mention(&mut self) -> Read<Formula> {
        let name = self.name(OPERAND)?;
        let operator = match self.take_sign("'") {
            true => AFTER,
            false => IDENTIFIER,
        };
        let next = self.names.len();
        let place = *self.name_places.entry(name.text.clone()).or_insert(next);
        if place == next {
            self.names.push(name.text);
        }
        self.counted(Formula::leaf(operator, place as i64, name.at))
    }

    fn literal(&mut self, digits: &str, at: usize) -> Read<Formula> {
        let Ok(value) = digits.parse() else {
            let message = "a number lies between −2147483648 and 2147483647";
            return Err(Mistake::new(at, message));
        };
        self.step();
        self.counted(Formula::leaf(LITERAL, value, at))
    }

    /// The operator of the sign that stands here, if it is one of these, and where it stands.
    fn sign_of(&mut self, signs: &[(&str, i64)]) -> Option<(i64, usize)> {
        let at = self.at();
        let found = signs.iter().find(|(sign, _)| self.take_sign(sign));
        found.map(|(_, operator)| (*operator, at))
    }

    fn pair(&mut self, operator: i64, left: Formula, right: Formula, at: usize) -> Read<Formula> {
        self.counted(Formula::new(operator, vec![left, right], at))
    }

    fn counted(&mut self, formula: Formula) -> Read<Formula> {
        self.size += 1;
        match self.size > MOST {
            true => Err(Mistake::new(
                formula.at,
                "the formula is too long: a table takes 512 nodes",
            )),
            false => Ok(formula),
        }
    }

    fn deeper(&mut self) -> Read<()> {
        self.depth += 1;
        match self.depth > DEEPEST {
            true => Err(Mistake::new(
                self.at(),
                "the formula is nested too deep: a table takes 512 nodes",
            )),
            false => Ok(()),
        }
    }
}
