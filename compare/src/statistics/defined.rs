//! Words for WD goals in which request 7 matters: what dividends of mod mention, and what stands below ÷ and mod.

use crate::formula::*;
use crate::sequents::Sequent;
use crate::table::Table;
use std::collections::BTreeSet;

/// The words for a sequent, if it is WD, by the nodes of its formula.
pub fn goals(table: &Table, sequent: &Sequent) -> Vec<&'static str> {
    let mut words = BTreeSet::new();
    if sequent.goal.form == 3 {
        let defined = Defined::of(table, sequent.goal.first, &mut words);
        words.extend(defined.words());
    }
    words.into_iter().collect()
}

/// What the well-definedness of a tree mentions.
#[derive(Default)]
struct Defined {
    /// As written.
    written: BTreeSet<i32>,
    /// But for dividends of mod.
    others: BTreeSet<i32>,
    /// In dividends of mod.
    dividends: BTreeSet<i32>,
    /// ÷ and mod among its nodes.
    divisions: BTreeSet<i32>,
}

impl Defined {
    /// Adds words for what stands below each ÷ and mod.
    fn of(table: &Table, root: i32, words: &mut BTreeSet<&'static str>) -> Defined {
        let node = table.nodes[root as usize - 1];
        let mut below = operands(node).into_iter();
        let mut operand = || below.next().map(|one| Defined::of(table, one, words));
        let (left, right) = (operand().unwrap_or_default(), operand().unwrap_or_default());
        let mut whole = Defined {
            written: &left.written | &right.written,
            others: &left.others | &right.others,
            dividends: &left.dividends | &right.dividends,
            divisions: &left.divisions | &right.divisions,
        };
        match node.operator {
            IDENTIFIER | AFTER => whole.written.extend([node.b]),
            DIVIDE => whole.others.extend(&right.written),
            MOD => {
                whole.dividends.extend(&left.written);
                whole.others.extend(&right.written);
            }
            AND | OR | IMPLIES => whole.others.extend(&left.written),
            _ => {}
        }
        if let DIVIDE | MOD = node.operator {
            whole.divisions.insert(node.operator);
            words.extend(nested(node.operator, &left, &right));
        }
        whole
    }

    /// What row 84 has by dividends alone.
    fn words(&self) -> Vec<&'static str> {
        let all = &self.others | &self.dividends;
        let (lowest, highest) = (self.others.first(), self.others.last());
        let more = all.len() > self.others.len();
        let (low, high) = (all.first() != lowest, all.last() != highest);
        let words = [
            ("an identifier by a dividend alone", more),
            (
                "all identifiers by dividends alone",
                more && self.others.is_empty(),
            ),
            ("the lowest identifier by a dividend alone", more && low),
            ("the highest identifier by a dividend alone", more && high),
            ("one between by a dividend alone", more && !low && !high),
        ];
        met(&words)
    }
}

/// What stands below the operands of this operator.
fn nested(operator: i32, left: &Defined, right: &Defined) -> Vec<&'static str> {
    let has = |side: &Defined, division: i32| side.divisions.contains(&division);
    let of_mod = [
        ("mod", true),
        ("mod below the dividend of mod", has(left, MOD)),
        ("mod below the divisor of mod", has(right, MOD)),
        ("÷ below the dividend of mod", has(left, DIVIDE)),
        ("÷ below the divisor of mod", has(right, DIVIDE)),
    ];
    let of_quotient = [
        ("mod below the dividend of ÷", has(left, MOD)),
        ("mod below the divisor of ÷", has(right, MOD)),
    ];
    match operator {
        MOD => met(&of_mod),
        _ => met(&of_quotient),
    }
}

fn met(words: &[(&'static str, bool)]) -> Vec<&'static str> {
    let met = words.iter().filter(|one| one.1);
    met.map(|one| one.0).collect()
}
