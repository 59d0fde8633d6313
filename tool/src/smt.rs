//! Sequents in SMT-LIB 2.6, made from spelled entries: whole numbers, ÷ toward zero, an undefined ÷ or mod as 0.

use crate::evaluate::is_boolean;
use crate::formula::operator::*;
use crate::formula::{Formula, Mention};
use crate::names::Names;
use crate::origin::origin;
use crate::sequents::Spelled;
use crate::table::Table;
use std::collections::BTreeSet;

/// What every script begins with.
pub const PREAMBLE: &str = "\
(set-option :produce-models true)
(set-logic UFNIA)
; a ÷ b, toward zero, 0 for b = 0; a mod b = a − b × (a ÷ b), 0 but for 0 ≤ a and 0 < b
(define-fun quotient ((a Int) (b Int)) Int
  (ite (= b 0) 0 (ite (<= 0 a) (div a b) (- (div (- a) b)))))
(define-fun remainder ((a Int) (b Int)) Int
  (ite (and (<= 0 a) (< 0 b)) (- a (* b (quotient a b))) 0))
";

/// Names that SMT-LIB or a prover has for itself, or the preamble defines.
const TAKEN: &str = "\
true false not and or xor ite distinct div mod abs let forall exists match par as _ BINARY \
DECIMAL HEXADECIMAL NUMERAL STRING assert echo exit pop push reset quotient remainder rem \
implies iff if store select min max is_int to_int to_real divisible lambda const include \
simplify";

/// Writes SMT-LIB with a model's names.
pub struct Smt<'a> {
    pub table: &'a Table,
    pub names: &'a Names,
}

impl Smt<'_> {
    /// What the sequent mentions, each once.
    pub fn mentions(&self, spelled: &Spelled) -> BTreeSet<Mention> {
        let formulas = spelled.hypotheses.iter().chain([&spelled.goal]);
        formulas.flat_map(|formula| formula.free()).collect()
    }

    /// The declarations of these names.
    pub fn declarations(&self, mentions: &BTreeSet<Mention>) -> String {
        let declared = mentions.iter().map(|&mention| {
            format!(
                "(declare-const {} {})\n",
                self.symbol(mention),
                self.sort(mention)
            )
        });
        declared.collect()
    }

    /// The first so many hypotheses, each with its label.
    pub fn hypotheses(&self, spelled: &Spelled, count: usize) -> String {
        let entries = spelled.sequent.hypotheses.iter().zip(&spelled.hypotheses);
        let asserted = entries.take(count).map(|(&entry, formula)| {
            let label = origin(entry, self.table, self.names).label;
            format!("(assert {}) ; {label}\n", self.term(formula))
        });
        asserted.collect()
    }

    /// The denied goal: the sequent is valid if this can't be met together with the hypotheses.
    pub fn denied_goal(&self, spelled: &Spelled) -> String {
        format!(
            "(assert (not {})) ; the goal, denied\n",
            self.term(&spelled.goal)
        )
    }

    /// One sequent: declarations, hypotheses, denied goal and a check-sat.
    pub fn question(&self, spelled: &Spelled) -> String {
        let (k, label) = (
            spelled.sequent.k,
            spelled.sequent.label(self.table, self.names),
        );
        let mentions = self.mentions(spelled);
        let declared = self.declarations(&mentions);
        let hypotheses = self.hypotheses(spelled, spelled.hypotheses.len());
        let goal = self.denied_goal(spelled);
        format!("; sequent {k}: {label}\n{declared}{hypotheses}{goal}(check-sat)\n")
    }

    /// The symbol of an identifier or after value. No bar and no backslash is in a name.
    pub fn symbol(&self, mention: Mention) -> String {
        let name = self.names.identifier(mention.identifier, self.table);
        if mention.after {
            return format!("|{name}'|");
        }
        let plain = name
            .chars()
            .all(|c| c.is_ascii_alphanumeric() || c == '_' || c == '.');
        match plain {
            _ if TAKEN.split(' ').any(|taken| taken == name) => format!("|{name} (the model's)|"),
            true => name,
            false => format!("|{name}|"),
        }
    }

    pub fn sort(&self, mention: Mention) -> &'static str {
        match is_boolean(self.table, mention) {
            true => "Bool",
            false => "Int",
        }
    }

    /// A formula as a term.
    pub fn term(&self, formula: &Formula) -> String {
        let operands: Vec<String> = formula.operands.iter().map(|one| self.term(one)).collect();
        if let Some(mention) = formula.mention() {
            return self.symbol(mention);
        }
        if let Some(bound) = formula.bound() {
            let (symbol, sort) = (self.symbol(bound), self.sort(bound));
            return format!("(exists (({symbol} {sort})) {})", operands[0]);
        }
        let function = match formula.operator {
            LITERAL if formula.number < 0 => {
                return format!("(- {})", formula.number.unsigned_abs())
            }
            LITERAL => return formula.number.to_string(),
            TRUE | TOP => return "true".to_string(),
            FALSE | BOTTOM => return "false".to_string(),
            BOOL => return operands[0].clone(),
            PLUS => "+",
            MINUS | NEGATION => "-",
            TIMES => "*",
            DIVIDE => "quotient",
            MOD => "remainder",
            EQUAL | IFF => "=",
            LESS => "<",
            AT_MOST => "<=",
            NOT => "not",
            AND => "and",
            OR => "or",
            _ => "=>",
        };
        format!("({function} {})", operands.join(" "))
    }
}
