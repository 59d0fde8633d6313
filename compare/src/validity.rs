//! Searches the sequents that a rule leaves out of the list for values that refute them. Request 4's leaves out valid ones.

use crate::checks::accept;
use crate::formula::mentions;
use crate::generate;
use crate::refute::{counterexample, free_names, shown};
use crate::sequents::{whole_list, Sequent, INV, WD};
use crate::table::Table;
use std::ops::RangeInclusive;

/// Integers that are tried.
const INTEGERS: RangeInclusive<i128> = -1..=2;

/// Sequents with more free identifiers and after values than this aren't searched.
const NAMES: usize = 9;

/// The hypotheses under which a sequent is searched.
#[derive(Clone, Copy, Debug, PartialEq, Eq)]
pub enum Under {
    All,
    /// Those by which it is valid if it may be left out: of WD none; of INV the invariant itself, and form 4 of the
    /// variables that it mentions. Others, which are often false, hide nothing then.
    Needed,
}

impl Under {
    fn sequent(self, table: &Table, sequent: &Sequent) -> Sequent {
        let mut kept = sequent.clone();
        if self == Under::Needed {
            let mentioned = mentions(table, sequent.item);
            kept.hypotheses
                .retain(|entry| match (sequent.kind, entry.form) {
                    (INV, 4) => mentioned.iter().any(|node| node.b == entry.second),
                    (INV, _) => entry.first == sequent.item,
                    _ => false,
                });
        }
        kept
    }
}

/// What was searched of the sequents left out.
#[derive(Debug, Default)]
pub struct Searched {
    pub tables: usize,
    pub wd: usize,
    pub inv: usize,
    /// Not searched, for they have too many free names.
    pub large: usize,
    /// The first that values refute: its seed, its row 80 and the values.
    pub refuted: Option<String>,
}

/// Searches the tables of so many seeds, up to the first sequent that is left out and refuted.
pub fn search(
    first: u64,
    count: u64,
    under: Under,
    is_left_out: impl Fn(&Table, &Sequent) -> bool,
) -> Searched {
    let mut searched = Searched::default();
    for seed in first..first + count {
        let Ok(table) = accept(&generate::table(seed)) else {
            continue;
        };
        searched.tables += 1;
        for sequent in whole_list(&table) {
            if is_left_out(&table, &sequent) {
                searched.add(&table, &under.sequent(&table, &sequent), seed);
            }
            if searched.refuted.is_some() {
                return searched;
            }
        }
    }
    searched
}

impl Searched {
    fn add(&mut self, table: &Table, sequent: &Sequent, seed: u64) {
        if free_names(table, sequent) > NAMES {
            self.large += 1;
            return;
        }
        match sequent.kind {
            WD => self.wd += 1,
            INV => self.inv += 1,
            _ => {}
        }
        if let Some(values) = counterexample(table, sequent, INTEGERS) {
            let Sequent {
                kind, event, item, ..
            } = sequent;
            let values = shown(&values);
            self.refuted = Some(format!("seed {seed}: 80 {kind} {event} {item}:{values}"));
        }
    }

    /// The counts as lines of text.
    pub fn report(&self) -> String {
        let Searched {
            tables,
            wd,
            inv,
            large,
            ..
        } = self;
        format!(
            "{tables} accepted tables; of the sequents left out {wd} WD and {inv} INV searched, {large} too large\n"
        )
    }
}
