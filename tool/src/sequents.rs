//! The sequents of a table as the library writes them, and their entries as it spells them.

use crate::formula::Formula;
use crate::library::{self, Refusal};
use crate::names::Names;
use crate::rows::{read_rows, Row};
use crate::table::{class, tag, Table};
use std::collections::HashMap;
use std::rc::Rc;

/// The kinds of sequents, by their numbers.
pub const KINDS: [&str; 8] = ["WD", "INV", "FIS", "GRD", "SIM", "WFIS", "NAT", "VAR"];

/// Rodin's words for WD of a variant, WD of a witness, and SIM of a variable that the abstract event doesn't set.
pub const RODIN_KINDS: [&str; 3] = ["VWD", "WWD", "EQL"];

/// An entry: its form and two numbers.
#[derive(Clone, Copy, Debug, PartialEq, Eq, Hash)]
pub struct Entry {
    pub form: i64,
    pub first: i64,
    pub second: i64,
}

/// A sequent: its row 80 and its entries.
#[derive(Clone, Debug)]
pub struct Sequent {
    pub k: u64,
    pub kind: i64,
    pub event: i64,
    pub item: i64,
    pub hypotheses: Vec<Entry>,
    pub goal: Entry,
}

/// A sequent with its entries spelled out.
pub struct Spelled {
    pub sequent: Sequent,
    pub hypotheses: Vec<Rc<Formula>>,
    pub goal: Rc<Formula>,
}

/// Asks the library about an accepted table. An entry is spelled once, however many sequents have it.
pub struct Answers<'a> {
    table: &'a [u8],
    spelled: HashMap<Entry, Rc<Formula>>,
}

impl Sequent {
    /// The sequent in the rows that the library wrote.
    fn read(k: u64, rows: &[Row]) -> Option<Sequent> {
        let [header, _mentioned, hypotheses @ .., goal] = rows else {
            return None;
        };
        let tags = hypotheses.iter().all(|row| row.tag == 81);
        let entry = |row: &Row| Entry {
            form: row.a,
            first: row.b,
            second: row.c,
        };
        (tags && header.tag == 80 && goal.tag == 82).then(|| Sequent {
            k,
            kind: header.a,
            event: header.b,
            item: header.c,
            hypotheses: hypotheses.iter().map(entry).collect(),
            goal: entry(goal),
        })
    }

    /// The word of its kind.
    pub fn kind_word(&self) -> &'static str {
        let place = usize::try_from(self.kind - 1).unwrap_or(usize::MAX);
        KINDS.get(place).copied().unwrap_or("?")
    }

    /// Rodin's word for its kind.
    pub fn rodin_kind(&self, table: &Table) -> &'static str {
        let tag = table.named_by(self.item).map(|place| table.rows[place].tag);
        match (self.kind_word(), tag) {
            ("WD", Some(tag::VARIANT)) => "VWD",
            ("WD", Some(tag::WITNESS)) => "WWD",
            ("SIM", _) if self.simulated(table).is_none() => "EQL",
            (word, _) => word,
        }
    }

    /// Rodin's label: event, formula, kind.
    pub fn label(&self, table: &Table, names: &Names) -> String {
        let mut parts = Vec::new();
        if self.event != 0 {
            parts.push(names.event(self.event));
        }
        parts.extend(self.item_label(table, names));
        parts.push(self.rodin_kind(table).to_string());
        parts.join("/")
    }

    /// Its number, its component and its label, as lists show them.
    pub fn line(&self, table: &Table, names: &Names) -> String {
        let (component, label) = (self.component(table, names), self.label(table, names));
        format!("{:>5}  {component}  {label}", self.k)
    }

    /// The label of what the sequent is about; the variant's is left out.
    fn item_label(&self, table: &Table, names: &Names) -> Option<String> {
        let place = match self.rodin_kind(table) {
            "VWD" | "NAT" | "VAR" => return None,
            "EQL" => return Some(names.own_name(self.item as usize)),
            "SIM" => self.simulated(table),
            "FIS" => table.action(self.event, self.item),
            "WFIS" => {
                let mut witnesses = table.of_event(tag::WITNESS, self.event);
                witnesses
                    .find(|(_, row)| row.b == self.item)
                    .map(|(place, _)| place)
            }
            _ => table.named_by(self.item),
        };
        place.map(|place| names.label(place).to_string())
    }

    /// The abstract action that SIM is about, if there is one.
    fn simulated(&self, table: &Table) -> Option<usize> {
        let event = table.event(self.event)?;
        let refined = match event.b {
            class::INITIALISATION => 1,
            class::ORDINARY => event.c,
            _ => return None,
        };
        table.action(refined, self.item)
    }

    /// The component that Rodin lists it in: the context, the abstract machine or its refinement.
    pub fn component<'a>(&self, table: &Table, names: &'a Names) -> &'a str {
        if let Some(event) = table.event(self.event) {
            return names.machine(event.a);
        }
        let named = table.named_by(self.item);
        match named.map_or(0, |place| table.rows[place].tag) {
            tag::AXIOM => &names.context,
            tag::ABSTRACT_INVARIANT => names.machine(1),
            _ => names.machine(2),
        }
    }
}

impl<'a> Answers<'a> {
    pub fn new(table: &'a [u8]) -> Answers<'a> {
        Answers {
            table,
            spelled: HashMap::new(),
        }
    }

    pub fn sequent(&self, k: u64) -> Result<Sequent, Refusal> {
        let bytes = library::sequent(self.table, k)?;
        let rows = read_rows(&bytes).expect("the library writes rows");
        Ok(Sequent::read(k, &rows).expect("rows 80, 84, 81, 82"))
    }

    /// Sequents 1 to the count.
    pub fn all(&self, count: u64) -> Result<Vec<Sequent>, Refusal> {
        (1..=count).map(|k| self.sequent(k)).collect()
    }

    pub fn spell(&mut self, sequent: Sequent) -> Result<Spelled, Refusal> {
        let entries = sequent.hypotheses.iter().chain([&sequent.goal]);
        let mut formulas = Vec::new();
        for (place, &entry) in entries.enumerate() {
            formulas.push(self.formula(entry, sequent.k, place as u64 + 1)?);
        }
        let goal = formulas.pop().expect("a goal");
        Ok(Spelled {
            sequent,
            hypotheses: formulas,
            goal,
        })
    }

    /// The formula of an entry, which is entry j of sequent k.
    fn formula(&mut self, entry: Entry, k: u64, j: u64) -> Result<Rc<Formula>, Refusal> {
        if let Some(formula) = self.spelled.get(&entry) {
            return Ok(formula.clone());
        }
        let rows = library::entry(self.table, k, j)?;
        let formula = Rc::new(Formula::spelled(&rows).expect("a formula in prefix order"));
        self.spelled.insert(entry, formula.clone());
        Ok(formula)
    }

    /// How many different entries were spelled.
    pub fn spelled_count(&self) -> usize {
        self.spelled.len()
    }
}
