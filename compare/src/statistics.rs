//! What the tables of many seeds contain and how they are answered.

pub mod anticipated;
pub mod defined;
pub mod left_out;
pub mod presses;
pub mod remainders;
pub mod replays;
pub mod shapes;
pub mod shared;
pub mod terms;
pub mod two_faults;

use crate::checks::{accept, Refusal};
use crate::generate::sections::COMBINATIONS;
use crate::generate::{case, Case};
use crate::plain;
use crate::rows::ROW_BYTES;
use crate::sequents::{sequents, spell_out, whole_list, Sequent, SIM};
use crate::services::{check, print, spell_entry, write_sequent};
use crate::table::Table;
use shapes::{empty_sections, shapes};
use std::collections::{BTreeMap, BTreeSet};

/// How often each of the paper's numbers occurred.
type Counts = BTreeMap<i32, usize>;

/// Counts over many seeds.
#[derive(Clone, Debug, Default)]
pub struct Statistics {
    pub cases: usize,
    pub accepted: usize,
    pub refusals: Counts,
    pub kinds: Counts,
    /// Sequents that request 4 leaves out.
    pub left_out: Counts,
    pub hypothesis_forms: Counts,
    pub goal_forms: Counts,
    /// SIM of shared variables, by the class of its event.
    pub shared_sim: Counts,
    pub operators: Counts,
    /// Tables by words for where their rows stand and how near a refusal they are.
    pub shapes: BTreeMap<String, usize>,
    /// Sequents by words for what their goals mention.
    pub goals: BTreeMap<&'static str, usize>,
    /// WD by words for what dividends of mod add to it.
    pub defined: BTreeMap<&'static str, usize>,
    /// Combinations of empty sections in accepted tables.
    pub empty: BTreeSet<Vec<i32>>,
    pub most_sequents: usize,
    pub longest_sequent: usize,
    pub longest_entry: usize,
    pub longest_print: usize,
    pub most_rows: usize,
}

impl Statistics {
    /// Counts the cases of the seeds from `first`, so many of them.
    pub fn of(first: u64, seeds: u64) -> Statistics {
        let mut statistics = Statistics::default();
        for seed in first..first + seeds {
            statistics.add(&case(seed));
        }
        statistics
    }

    fn add(&mut self, case: &Case) {
        self.cases += 1;
        for number in refusals_of(case) {
            count(&mut self.refusals, number);
        }
        self.longest_print = self.longest_print.max(print(&case.table).len() / ROW_BYTES);
        let accepted = accept(&case.table);
        for word in shapes(&case.table, accepted.as_ref().err().copied()) {
            *self.shapes.entry(word).or_default() += 1;
        }
        if let Ok(table) = accepted {
            self.accepted += 1;
            self.empty.insert(empty_sections(&table));
            self.add_table(&table);
        }
    }

    fn add_table(&mut self, table: &Table) {
        let list = sequents(table);
        for sequent in whole_list(table) {
            if plain::is_left_out(table, &sequent) {
                count(&mut self.left_out, sequent.kind);
            }
        }
        self.most_rows = self.most_rows.max(table.rows.len());
        self.most_sequents = self.most_sequents.max(list.len());
        for sequent in &list {
            count(&mut self.kinds, sequent.kind);
            if sequent.kind == SIM && shared::is_shared(table, sequent.item) {
                let event = table.events[sequent.event as usize - 1];
                count(&mut self.shared_sim, event.class);
            }
            self.longest_sequent = self.longest_sequent.max(sequent.rows());
            for entry in &sequent.hypotheses {
                count(&mut self.hypothesis_forms, entry.form);
            }
            self.add_goal(table, sequent);
        }
    }

    fn add_goal(&mut self, table: &Table, sequent: &Sequent) {
        count(&mut self.goal_forms, sequent.goal.form);
        let spelled = spell_out(table, sequent.goal);
        self.longest_entry = self.longest_entry.max(spelled.len());
        for word in left_out::goals(table, sequent, &spelled) {
            count(&mut self.goals, word);
        }
        for word in defined::goals(table, sequent) {
            count(&mut self.defined, word);
        }
        for symbol in spelled {
            count(&mut self.operators, symbol.operator);
        }
    }

    /// The counts as lines of text.
    pub fn report(&self) -> String {
        let mut text = format!("cases {}, accepted {}\n", self.cases, self.accepted);
        let lists = [
            ("refusal (cases)", &self.refusals),
            ("kind (sequents)", &self.kinds),
            ("kind (sequents left out)", &self.left_out),
            ("form (hypotheses)", &self.hypothesis_forms),
            ("form (goals)", &self.goal_forms),
            ("class (SIM of shared variables)", &self.shared_sim),
            ("operator (goals spelled)", &self.operators),
        ];
        for (title, counts) in lists {
            text += title;
            for (number, count) in counts {
                text += &format!(" {number}:{count}");
            }
            text += "\n";
        }
        for (word, count) in &self.shapes {
            text += &format!("{word}: {count}\n");
        }
        for (word, count) in &self.goals {
            text += &format!("goal with {word}: {count}\n");
        }
        for (word, count) in &self.defined {
            text += &format!("WD with {word}: {count}\n");
        }
        let empty = self.empty.len();
        text += &format!("combinations of empty sections {empty} of {COMBINATIONS}\n");
        text += &format!("most rows of an accepted table {}\n", self.most_rows);
        text += &format!("most sequents {}\n", self.most_sequents);
        text += &format!("longest sequent, rows {}\n", self.longest_sequent);
        text += &format!("longest spelled goal, rows {}\n", self.longest_entry);
        text += &format!("longest print, rows {}\n", self.longest_print);
        text
    }
}

fn count<K: Ord>(counts: &mut BTreeMap<K, usize>, key: K) {
    *counts.entry(key).or_default() += 1;
}

/// The different refusals that the case's three calls meet.
pub fn refusals_of(case: &Case) -> Vec<i32> {
    let mut sequent = vec![0; case.sequent_room];
    let mut entry = vec![0; case.entry_room];
    let answers: [Result<usize, Refusal>; 3] = [
        check(&case.table),
        write_sequent(&case.table, case.k, &mut sequent),
        spell_entry(&case.table, case.k, case.j, &mut entry),
    ];
    let refused = answers.iter().filter_map(|answer| answer.err());
    let mut numbers: Vec<i32> = refused.map(|refusal| refusal.number).collect();
    numbers.dedup();
    numbers
}
