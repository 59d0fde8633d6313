//! Writes an accepted table as a text of the notation.

use crate::formula::{operator, written, Formula};
use crate::names::Names;
use crate::notation::syntax::Part;
use crate::rows::Row;
use crate::table::{class, kind, tag, Table, INTEGER};

/// The text of an accepted table.
pub fn write(table: &Table, names: &Names) -> String {
    let writer = Writer { table, names };
    let mut text = writer.context();
    text += &writer.machine(1);
    text += &writer.machine(2);
    text += &writer.numbering();
    text.trim_start().to_string()
}

struct Writer<'a> {
    table: &'a Table,
    names: &'a Names,
}

impl Writer<'_> {
    fn context(&self) -> String {
        let constants = self.declared("", "constants", |row| row.a == kind::CONSTANT);
        let axioms = self.labelled("", "axioms", self.table.places(tag::AXIOM));
        match constants.is_empty() && axioms.is_empty() {
            true => String::new(),
            false => format!("context {}\n{constants}{axioms}end\n", self.names.context),
        }
    }

    fn machine(&self, machine: i64) -> String {
        let names = self.names;
        let mut text = format!("\nmachine {}", names.machine(machine));
        if machine == 2 {
            text += &format!(" refines {}", names.machine(1));
        }
        if !self.context().is_empty() {
            text += &format!(" sees {}", names.context);
        }
        text += "\n";
        text += &self.declared("", "variables", |row| Table::has_variable(machine, row.a));
        let invariants = self.table.places(tag::AXIOM + machine);
        text += &self.labelled("", "invariants", invariants);
        let variants = self.table.places(tag::VARIANT).filter(|_| machine == 2);
        for place in variants {
            text += &format!("variant {}\n", self.formula(place));
        }
        text += "events\n";
        let events = self.table.tagged(tag::EVENT).zip(1..);
        for ((_, row), number) in events.filter(|((_, row), _)| row.a == machine) {
            text += &self.event(row, number);
        }
        text + "end\n"
    }

    fn event(&self, row: Row, number: i64) -> String {
        let status = match row.b {
            class::CONVERGENT => "convergent ",
            class::ANTICIPATED => "anticipated ",
            _ => "",
        };
        let mut text = format!("\n  {status}event {}", self.names.event(number));
        if row.c != 0 {
            text += &format!(" refines {}", self.names.event(row.c));
        }
        text += "\n";
        let margin = "    ";
        text += &self.declared(margin, "any", |row| {
            Table::is_parameter(row.a) && row.c == number
        });
        let places = |tag| self.table.of_event(tag, number).map(|(place, _)| place);
        text += &self.labelled(margin, "where", places(tag::GUARD));
        let witnesses = places(tag::WITNESS).filter(|&place| !self.is_kept(place));
        text += &self.labelled(margin, "with", witnesses);
        let actions = places(tag::BECOMES_EQUAL).chain(places(tag::BECOMES_SUCH));
        text += &self.labelled(margin, "then", actions);
        text + "  end\n"
    }

    /// Whether a witness equates two parameters of one name, which the notation does by itself.
    fn is_kept(&self, place: usize) -> bool {
        let target = self.table.rows[place].b;
        let formula = self
            .table
            .root(place)
            .and_then(|root| self.table.formula(root));
        let Some(formula) = formula.filter(|formula| formula.operator == operator::EQUAL) else {
            return false;
        };
        let sides: Vec<i64> = formula
            .operands
            .iter()
            .filter(|side| side.operator == operator::IDENTIFIER)
            .map(|side| side.number)
            .collect();
        let name = |number: i64| self.names.own_name(number as usize);
        matches!(sides[..], [left, right] if left == target && right != target && name(left) == name(right))
    }

    /// A part that declares: names in the order of their numbers, a line for names of one type.
    fn declared(&self, margin: &str, word: &str, passes: impl Fn(Row) -> bool) -> String {
        let mut lines = String::new();
        let mut last = 0;
        for ((_, row), number) in self.table.tagged(tag::IDENTIFIER).zip(1..) {
            if !passes(row) {
                continue;
            }
            if last == row.b {
                lines += ", ";
            } else {
                lines += &type_of(last);
                lines += &format!("{margin}  ");
            }
            lines += &self.names.own_name(number);
            last = row.b;
        }
        part(margin, word, lines + &type_of(last))
    }

    /// A part of labelled formulas, a line for each.
    fn labelled(&self, margin: &str, word: &str, places: impl Iterator<Item = usize>) -> String {
        let line = |place| {
            format!(
                "{margin}  @{} {}\n",
                self.names.label(place),
                self.formula(place)
            )
        };
        part(margin, word, places.map(line).collect())
    }

    /// The formula whose root a row names, as an action where it is one.
    fn formula(&self, place: usize) -> String {
        let row = self.table.rows[place];
        let root = self.table.root(place).expect("a row that names a root");
        let formula = self
            .table
            .formula(root)
            .expect("a formula of an accepted table");
        let text = written(&formula, &|number| self.names.own_name(number));
        let variable = || self.names.own_name(row.b as usize);
        match row.tag {
            tag::BECOMES_EQUAL => format!("{} ≔ {text}", variable()),
            tag::BECOMES_SUCH => format!("{} :∣ {text}", variable()),
            _ => text,
        }
    }
}

/// A part under its word; an empty one is left out.
fn part(margin: &str, word: &str, lines: String) -> String {
    match lines.is_empty() {
        true => lines,
        false => format!("{margin}{word}\n{lines}"),
    }
}

/// What stands behind names of a type; nothing before the first.
fn type_of(type_number: i64) -> String {
    match type_number {
        0 => String::new(),
        INTEGER => " ∈ ℤ\n".to_string(),
        _ => " ∈ BOOL\n".to_string(),
    }
}

/// A list of numbers in lines of 20.
fn list(part: Part, numbers: &[i64]) -> String {
    let words: Vec<String> = numbers.iter().map(i64::to_string).collect();
    let lines: Vec<String> = words.chunks(20).map(|line| line.join(" ")).collect();
    format!("  {}\n    {}\n", part.word(), lines.join("\n    "))
}

/// A formula's nodes, operands first.
fn nodes(formula: &Formula) -> Vec<i64> {
    let mut numbers: Vec<i64> = formula.operands.iter().flat_map(nodes).collect();
    numbers.push(formula.at as i64);
    numbers
}

/// The order in which the notation numbers, and the table's own.
impl Writer<'_> {
    /// The part `numbering`, with the lists of what the table numbers otherwise.
    fn numbering(&self) -> String {
        let lists = Part::ALL.map(|part| (part, self.numbers(part)));
        let lines: String = lists
            .into_iter()
            .filter(|(_, numbers)| !numbers.iter().copied().eq(1..=numbers.len() as i64))
            .map(|(part, numbers)| list(part, &numbers))
            .collect();
        match lines.is_empty() {
            true => lines,
            false => format!("\nnumbering\n{lines}end\n"),
        }
    }

    /// The table's numbers of a part's members, in the order in which the notation numbers them.
    fn numbers(&self, part: Part) -> Vec<i64> {
        match part {
            Part::Identifiers => self.identifiers(),
            Part::Nodes => self.roots().iter().flat_map(nodes).collect(),
            Part::Guards => self.by_event(&[tag::GUARD]),
            Part::Actions => self.by_event(&[tag::BECOMES_EQUAL, tag::BECOMES_SUCH]),
            Part::Witnesses => self.by_event(&[tag::WITNESS]),
        }
    }

    fn event_numbers(&self) -> std::ops::RangeInclusive<i64> {
        1..=self.table.places(tag::EVENT).count() as i64
    }

    /// Constants, then each machine's variables and its events' parameters.
    fn identifiers(&self) -> Vec<i64> {
        let numbered = |passes: &dyn Fn(Row) -> bool| -> Vec<i64> {
            let all = self.table.tagged(tag::IDENTIFIER).zip(1..);
            all.filter(|((_, row), _)| passes(*row))
                .map(|(_, number)| number)
                .collect()
        };
        let mut numbers = numbered(&|row| row.a == kind::CONSTANT);
        let variables: [&[i64]; 2] = [
            &[kind::ABSTRACT_VARIABLE, kind::SHARED_VARIABLE],
            &[kind::CONCRETE_VARIABLE],
        ];
        for (kinds, machine) in variables.into_iter().zip(1..) {
            numbers.extend(numbered(&|row| kinds.contains(&row.a)));
            for event in self.event_numbers() {
                numbers.extend(numbered(&|row| row.a == machine + 3 && row.c == event));
            }
        }
        numbers
    }

    /// The rows of an event with this tag; kept parameters' witnesses last, in the order of the parameters.
    fn places(&self, tag: i64, event: i64) -> Vec<usize> {
        let rows = self.table.of_event(tag, event).map(|(place, _)| place);
        let mut places: Vec<usize> = rows.collect();
        if tag == tag::WITNESS {
            let target = |place: usize| self.table.rows[place].b;
            places.sort_by_key(|&place| self.is_kept(place).then(|| target(place)));
        }
        places
    }

    /// The places of rows among those of these tags, tag by tag and event by event.
    fn by_event(&self, tags: &[i64]) -> Vec<i64> {
        let rows = &self.table.rows;
        let first = rows.iter().position(|row| tags.contains(&row.tag));
        let first = first.unwrap_or(0);
        let events = |&tag| {
            self.event_numbers()
                .flat_map(move |event| self.places(tag, event))
        };
        let places = tags.iter().flat_map(events);
        places.map(|place| (place - first) as i64 + 1).collect()
    }

    /// The formulas in the order in which the notation numbers their nodes.
    fn roots(&self) -> Vec<Formula> {
        let mut places = Vec::new();
        for tag in tag::AXIOM..=tag::CONCRETE_INVARIANT {
            places.extend(self.table.places(tag));
        }
        for event in self.event_numbers() {
            for tag in [
                tag::GUARD,
                tag::BECOMES_EQUAL,
                tag::BECOMES_SUCH,
                tag::WITNESS,
            ] {
                places.extend(self.places(tag, event));
            }
        }
        places.extend(self.table.places(tag::VARIANT));
        let roots = places
            .into_iter()
            .filter_map(|place| self.table.root(place));
        roots.filter_map(|root| self.table.formula(root)).collect()
    }
}
