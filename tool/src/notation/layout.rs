//! Lays a text out as a table: identifiers, events and formulas numbered from top to bottom, one node a use.

use crate::formula::{operand_count, operator, Formula};
use crate::names::{Names, INITIALISATION};
use crate::notation::numbering::renumber;
use crate::notation::syntax::*;
use crate::notation::token::quoted;
use crate::notation::Mistake;
use crate::rows::Row;
use crate::table::{class, kind, tag, Table};
use std::collections::HashMap;

/// A row, and the offset in the text that it comes from.
#[derive(Clone, Copy, Debug)]
pub struct Line {
    pub row: Row,
    pub at: usize,
}

/// A table with the names of its text.
pub struct LaidOut {
    pub lines: Vec<Line>,
    pub names: Names,
}

/// A formula with the row that names its root, but for the root.
struct Root {
    row: Row,
    label: Name,
    formula: Formula,
}

/// Where a formula stands: its event and the event that this refines, 0 for none.
#[derive(Clone, Copy, Default)]
struct Scope {
    event: i64,
    refined: i64,
}

/// Numbers by names: constants and variables, the parameters of each event, the first parameter of each name, and the
/// abstract events.
#[derive(Default)]
struct Known {
    global: HashMap<String, i64>,
    parameters: Vec<HashMap<String, i64>>,
    any_parameter: HashMap<String, i64>,
    abstract_events: HashMap<String, i64>,
}

#[derive(Default)]
struct Layout {
    identifiers: Vec<Line>,
    identifier_names: Vec<String>,
    known: Known,
    events: Vec<Line>,
    event_names: Vec<String>,
    nodes: Vec<Line>,
    roots: Vec<(Line, String)>,
}

type Done<T> = Result<T, Mistake>;

/// The table that a text describes, accepted or not.
pub fn lay_out(text: &Text) -> Done<LaidOut> {
    let mut layout = Layout::default();
    layout.identify(text)?;
    layout.place_events(text)?;
    for root in layout.gather(text)? {
        layout.place_root(root);
    }
    layout.finish(text)
}

/// Events with their numbers and machines (1 abstract, 2 concrete).
fn events(text: &Text) -> impl Iterator<Item = (i64, i64, &Event)> {
    let machines = text.machines.iter().zip(1..);
    let events = machines
        .flat_map(|(machine, number)| machine.events.iter().map(move |event| (number, event)));
    events
        .zip(1..)
        .map(|((machine, event), number)| (number, machine, event))
}

impl Layout {
    /// Numbers constants, then each machine's variables and the parameters of its events.
    fn identify(&mut self, text: &Text) -> Done<()> {
        for constant in &text.context.constants {
            self.declare_global(constant, kind::CONSTANT)?;
        }
        for (machine, number) in text.machines.iter().zip(1..) {
            for variable in &machine.variables {
                self.declare_variable(variable, number)?;
            }
            for event in &machine.events {
                let owner = self.known.parameters.len() as i64 + 1;
                self.known.parameters.push(HashMap::new());
                for parameter in &event.parameters {
                    self.declare_parameter(parameter, number + 3, owner)?;
                }
            }
        }
        Ok(())
    }

    fn declare(&mut self, declared: &Declared, kind: i64, owner: i64) -> i64 {
        self.identifiers.push(Line {
            row: row(tag::IDENTIFIER, kind, declared.of_type, owner),
            at: declared.name.at,
        });
        self.identifier_names.push(declared.name.text.clone());
        self.identifiers.len() as i64
    }

    fn declare_global(&mut self, declared: &Declared, kind: i64) -> Done<()> {
        let name = declared.name.text.clone();
        if self.known.global.contains_key(&name) {
            return Err(twice(&declared.name));
        }
        if self.known.any_parameter.contains_key(&name) {
            let message = format!(
                "{} is declared already, as a parameter in the abstract machine",
                quoted(&name)
            );
            return Err(Mistake::new(declared.name.at, &message));
        }
        let number = self.declare(declared, kind, 0);
        self.known.global.insert(name, number);
        Ok(())
    }

    /// A variable that both machines declare is shared: one identifier, where the abstract machine declares it.
    fn declare_variable(&mut self, declared: &Declared, machine: i64) -> Done<()> {
        let number = self.known.global.get(&declared.name.text).copied();
        let Some(number) = number.filter(|_| machine == 2) else {
            return self.declare_global(declared, machine + 1);
        };
        let first = &mut self.identifiers[number as usize - 1].row;
        if first.a != kind::ABSTRACT_VARIABLE {
            return Err(twice(&declared.name));
        }
        if first.b != declared.of_type {
            let message = format!(
                "{} has another type in the abstract machine; a shared variable has one",
                quoted(&declared.name.text)
            );
            return Err(Mistake::new(declared.name.at, &message));
        }
        first.a = kind::SHARED_VARIABLE;
        Ok(())
    }

    fn declare_parameter(&mut self, declared: &Declared, kind: i64, owner: i64) -> Done<()> {
        let name = declared.name.text.clone();
        let own = self.known.parameters.last().expect("the event's own");
        if self.known.global.contains_key(&name) || own.contains_key(&name) {
            return Err(twice(&declared.name));
        }
        let number = self.declare(declared, kind, owner);
        let own = self.known.parameters.last_mut().expect("the event's own");
        own.insert(name.clone(), number);
        self.known.any_parameter.entry(name).or_insert(number);
        Ok(())
    }

    fn place_events(&mut self, text: &Text) -> Done<()> {
        for (number, _, event) in events(text).filter(|(_, machine, _)| *machine == 1) {
            let name = event.name.text.clone();
            self.known.abstract_events.insert(name, number);
        }
        for (_, machine, event) in events(text) {
            let refines = self.known.refined(event);
            if let Some(name) = event.refines.as_ref().filter(|_| refines == 0) {
                let message = format!("the abstract machine has no event {}", quoted(&name.text));
                return Err(Mistake::new(name.at, &message));
            }
            self.events.push(Line {
                row: row(tag::EVENT, machine, event.class, refines),
                at: event.name.at,
            });
            self.event_names.push(match event.class {
                class::INITIALISATION => INITIALISATION.to_string(),
                _ => event.name.text.clone(),
            });
        }
        Ok(())
    }

    /// All formulas in the order of their nodes: axioms, invariants, event by event, variant.
    fn gather(&self, text: &Text) -> Done<Vec<Root>> {
        let mut roots = Vec::new();
        let mut plain = |tag: i64, formulas: &[Labelled]| -> Done<()> {
            for one in formulas {
                roots.push(self.root(text, row(tag, 0, 0, 0), one, Scope::default())?);
            }
            Ok(())
        };
        plain(tag::AXIOM, &text.context.axioms)?;
        for (machine, tag) in text.machines.iter().zip(tag::ABSTRACT_INVARIANT..) {
            plain(tag, &machine.invariants)?;
        }
        for (number, _, event) in events(text) {
            self.gather_event(text, number, event, &mut roots)?;
        }
        let refinement = text.machines.get(1);
        if let Some(variant) = refinement.and_then(|machine| machine.variant.as_ref()) {
            let row = row(tag::VARIANT, 0, 0, 0);
            roots.push(self.root(text, row, variant, Scope::default())?);
        }
        Ok(roots)
    }

    /// An event's guards, its actions by tag, and its witnesses.
    fn gather_event(
        &self,
        text: &Text,
        number: i64,
        event: &Event,
        roots: &mut Vec<Root>,
    ) -> Done<()> {
        let scope = Scope {
            event: number,
            refined: 0,
        };
        for guard in &event.guards {
            roots.push(self.root(text, row(tag::GUARD, number, 0, 0), guard, scope)?);
        }
        for tag in [tag::BECOMES_EQUAL, tag::BECOMES_SUCH] {
            for action in event.actions.iter().filter(|action| action.tag == tag) {
                let variable = self.find(&action.variable.text, action.variable.at, scope)?;
                roots.push(self.root(text, row(tag, number, variable, 0), &action.body, scope)?);
            }
        }
        let scope = Scope {
            event: number,
            refined: self.known.refined(event),
        };
        for witness in &event.witnesses {
            let target = self.target(&witness.label, scope)?;
            roots.push(self.root(text, row(tag::WITNESS, number, target, 0), witness, scope)?);
        }
        roots.extend(self.kept(text, scope));
        Ok(())
    }

    fn root(&self, text: &Text, row: Row, one: &Labelled, scope: Scope) -> Done<Root> {
        Ok(Root {
            row,
            label: one.label.clone(),
            formula: self.resolved(text, &one.formula, scope)?,
        })
    }

    /// What a witness is for: the refined event's parameter, or with a prime a variable.
    fn target(&self, label: &Name, scope: Scope) -> Done<i64> {
        let variable = label.text.strip_suffix('\'');
        let name = variable.unwrap_or(&label.text);
        let abstract_scope = Scope {
            event: scope.refined,
            refined: scope.event,
        };
        let number = self.find(name, label.at, abstract_scope);
        let number = number.map_err(|mistake| Mistake {
            message: mistake.message
                + "; a witness has the label of its parameter, or of its variable with a prime",
            ..mistake
        })?;
        let own = self.known.parameter(name, scope.event);
        let said = match (self.identifiers[number as usize - 1].row.a, variable) {
            (kind::ABSTRACT_PARAMETER, None) if own.is_some() => {
                "is a parameter of this event too: it is kept, and needs no witness"
            }
            (kind::ABSTRACT_PARAMETER, Some(_)) => {
                "is a parameter: the label of its witness has no prime"
            }
            (kind::ABSTRACT_VARIABLE, None) => {
                "is a variable: the label of its witness has a prime"
            }
            _ => return Ok(number),
        };
        let message = format!("{} {said}", quoted(name));
        Err(Mistake::new(label.at, &message))
    }

    /// The witnesses of parameters that an event keeps from the one that it refines: the abstract x = its own x.
    fn kept(&self, text: &Text, scope: Scope) -> Vec<Root> {
        // the abstract events are the first ones
        let place = (scope.refined as usize).checked_sub(1);
        let refined = place.map(|place| &text.machines[0].events[place]);
        let parameters = refined.map_or(&[][..], |event| &event.parameters);
        let kept = parameters.iter().filter_map(|parameter| {
            let text = parameter.name.text.clone();
            let target = self.known.parameter(&text, scope.refined)?;
            let value = self.known.parameter(&text, scope.event)?;
            let at = self.identifiers[value as usize - 1].at;
            let side = |number| Formula::leaf(operator::IDENTIFIER, number, at);
            Some(Root {
                row: row(tag::WITNESS, scope.event, target, 0),
                label: Name { text, at },
                formula: Formula::new(operator::EQUAL, vec![side(target), side(value)], at),
            })
        });
        kept.collect()
    }

    /// The formula with identifiers' numbers in the place of their names.
    fn resolved(&self, text: &Text, formula: &Formula, scope: Scope) -> Done<Formula> {
        let mut resolved = Formula::leaf(formula.operator, formula.number, formula.at);
        if Table::is_mention(formula.operator) {
            let name = &text.names[formula.number as usize];
            resolved.number = self.find(name, formula.at, scope)?;
        }
        for operand in &formula.operands {
            resolved.operands.push(self.resolved(text, operand, scope)?);
        }
        Ok(resolved)
    }

    /// The identifier of this name. One that may not stand there is found too: the library refuses it.
    fn find(&self, name: &str, at: usize, scope: Scope) -> Done<i64> {
        let own = self.known.parameter(name, scope.event);
        let number = own
            .or_else(|| self.known.parameter(name, scope.refined))
            .or_else(|| self.known.global.get(name).copied())
            .or_else(|| self.known.any_parameter.get(name).copied());
        number.ok_or_else(|| Mistake::new(at, &format!("{} isn't declared", quoted(name))))
    }

    /// Adds a formula's nodes, operands first, and the row that names its root.
    fn place_root(&mut self, root: Root) {
        let node = self.place_node(&root.formula);
        let mut row = root.row;
        match row.tag {
            tag::GUARD => row.b = node,
            tag::BECOMES_EQUAL | tag::BECOMES_SUCH | tag::WITNESS => row.c = node,
            _ => row.a = node,
        }
        let at = root.label.at;
        self.roots.push((Line { row, at }, root.label.text));
    }

    fn place_node(&mut self, formula: &Formula) -> i64 {
        let numbers: Vec<i64> = formula
            .operands
            .iter()
            .map(|operand| self.place_node(operand))
            .collect();
        let operand = |n: usize| numbers.get(n).copied().unwrap_or(0);
        let row = match operand_count(formula.operator) {
            0 => row(tag::NODE, formula.operator, formula.number, 0),
            _ => row(tag::NODE, formula.operator, operand(0), operand(1)),
        };
        let at = formula.at;
        self.nodes.push(Line { row, at });
        self.nodes.len() as i64
    }

    /// The rows in the order of their tags, renumbered where the text says so, with their names.
    fn finish(self, text: &Text) -> Done<LaidOut> {
        let mut named: Vec<(Line, String)> = self.roots;
        named.extend(self.events.into_iter().map(|line| (line, String::new())));
        // a stable sort: rows of one tag keep their order
        named.sort_by_key(|(line, _)| line.row.tag);
        let (mut identifiers, mut nodes) = (self.identifiers, self.nodes);
        let mut identifier_names = self.identifier_names;
        for list in &text.numbering {
            renumber(
                list,
                &mut identifiers,
                &mut identifier_names,
                &mut nodes,
                &mut named,
            )?;
        }
        let mut names = Names {
            context: text.context.name.clone(),
            identifiers: identifier_names,
            events: self.event_names,
            ..Names::default()
        };
        for (machine, name) in text.machines.iter().zip(&mut names.machines) {
            *name = machine.name.text.clone();
        }
        let mut lines = identifiers;
        lines.extend(nodes);
        for (line, label) in named {
            if line.row.tag != tag::EVENT {
                names.labels.insert(lines.len(), label);
            }
            lines.push(line);
        }
        Ok(LaidOut { lines, names })
    }
}

impl Known {
    /// The number of an event's parameter.
    fn parameter(&self, name: &str, event: i64) -> Option<i64> {
        let place = usize::try_from(event).ok()?.checked_sub(1)?;
        self.parameters.get(place)?.get(name).copied()
    }

    /// The number of the event that an event refines, 0 for none.
    fn refined(&self, event: &Event) -> i64 {
        let name = event.refines.as_ref().map(|name| &name.text);
        let number = name.and_then(|name| self.abstract_events.get(name));
        number.copied().unwrap_or(0)
    }
}

fn row(tag: i64, a: i64, b: i64, c: i64) -> Row {
    Row { tag, a, b, c }
}

fn twice(name: &Name) -> Mistake {
    Mistake::new(
        name.at,
        &format!("{} is declared already", quoted(&name.text)),
    )
}
