//! Well-definedness once more, by words for each operator, with other words for one of them.

use super::reply;
use compare::against::{Reply, Services};
use compare::checks::accept;
use compare::formula::{bare, spell, Symbol};
use compare::rows::{bytes_of, Row};
use compare::sequents::{sequents, Entry};
use compare::services::{check, spell_entry, write_sequent};
use compare::table::{Node, Table};

/// How well-definedness is spelled: operators, 0, the operands a and b as written, and their well-definedness wa and wb.
pub type Rule = &'static str;

pub const BOTH: Rule = "33 wa wb";
pub const QUOTIENT: Rule = "33 33 wa wb 32 20 b 0";
pub const REMAINDER: Rule = "33 33 wa wb 33 22 0 a 21 0 b";

/// The paper's rules, by operator.
pub fn rule(operator: i32) -> Rule {
    match operator {
        1 | 2 | 3 | 4 | 5 | 30 | 31 => "30",
        6 | 15 | 32 => "wa",
        13 => QUOTIENT,
        14 => REMAINDER,
        33 | 35 => "33 wa 35 a wb",
        34 => "33 wa 34 a wb",
        _ => BOTH,
    }
}

/// Answers as this program does, but one operator's well-definedness is spelled by another rule.
#[derive(Clone, Copy, Debug)]
pub struct Misdefined {
    pub operator: i32,
    pub rule: Rule,
}

/// No operator has another rule.
pub const RIGHT: Misdefined = Misdefined {
    operator: 0,
    rule: "",
};

impl Misdefined {
    pub fn spelled(&self, table: &Table, root: i32) -> Vec<Symbol> {
        let mut out = Vec::new();
        self.spell(table, root, &mut out);
        out
    }

    fn spell(&self, table: &Table, root: i32, out: &mut Vec<Symbol>) {
        let Node { operator, b, c, .. } = table.nodes[root as usize - 1];
        let rule = match operator == self.operator {
            true => self.rule,
            false => rule(operator),
        };
        for word in rule.split(' ') {
            match word {
                "a" => spell(table, b, out),
                "b" => spell(table, c, out),
                "wa" => self.spell(table, b, out),
                "wb" => self.spell(table, c, out),
                "0" => out.push(Symbol::new(1, 0)),
                operator => out.push(bare(operator.parse().expect("an operator"))),
            }
        }
    }

    /// The rows of an entry, if it is WD.
    fn rows(&self, table: &Table, k: u64, j: u64) -> Option<Vec<Row>> {
        let list = sequents(table);
        let entries = list.get((k as usize).checked_sub(1)?)?.entries();
        let &Entry { form, first, .. } = entries.get((j as usize).checked_sub(1)?)?;
        let spelled = (form == 3).then(|| self.spelled(table, first))?;
        let row = |one: Symbol| Row::new(83, one.operator, one.b, 0);
        Some(spelled.into_iter().map(row).collect())
    }
}

impl Services for Misdefined {
    fn stack(&self) -> usize {
        8 << 20
    }

    fn check(&self, table: &[u8]) -> Reply {
        reply(check(table))
    }

    fn write_sequent(&self, table: &[u8], k: u64, out: &mut [u8]) -> Reply {
        reply(write_sequent(table, k as usize, out))
    }

    fn spell_entry(&self, table: &[u8], k: u64, j: u64, out: &mut [u8]) -> Reply {
        let answer = reply(spell_entry(table, k as usize, j as usize, out));
        let accepted = accept(table).ok().filter(|_| answer.number == 0);
        let Some(rows) = accepted.and_then(|table| self.rows(&table, k, j)) else {
            return answer;
        };
        let bytes = bytes_of(&rows);
        let fitting = bytes.len().min(out.len());
        out[..fitting].copy_from_slice(&bytes[..fitting]);
        Reply {
            number: 0,
            value: rows.len() as u64,
        }
    }
}
