//! A table's rows, sorted by what they are. Nothing is checked here.

use crate::rows::Row;

pub const CONSTANT: i32 = 1;
pub const ABSTRACT_VARIABLE: i32 = 2;
pub const CONCRETE_VARIABLE: i32 = 3;
pub const ABSTRACT_PARAMETER: i32 = 4;
pub const CONCRETE_PARAMETER: i32 = 5;
pub const SHARED_VARIABLE: i32 = 6;

pub const INTEGER: i32 = 1;
pub const BOOLEAN: i32 = 2;

pub const ABSTRACT: i32 = 1;
pub const CONCRETE: i32 = 2;

pub const INITIALISATION: i32 = 0;
pub const ORDINARY: i32 = 1;
pub const CONVERGENT: i32 = 2;
pub const ANTICIPATED: i32 = 3;

pub const AXIOM: i32 = 30;
pub const ABSTRACT_INVARIANT: i32 = 31;
pub const CONCRETE_INVARIANT: i32 = 32;
pub const GUARD: i32 = 50;
pub const BECOMES_EQUAL: i32 = 51;
pub const BECOMES_SUCH_THAT: i32 = 52;
pub const WITNESS: i32 = 60;
pub const VARIANT: i32 = 70;

/// Row 10. `row` is counted from 1, here and below.
#[derive(Clone, Copy, Debug)]
pub struct Identifier {
    pub row: usize,
    pub kind: i32,
    pub type_number: i32,
    pub owner: i32,
}

impl Identifier {
    pub fn is_variable(&self) -> bool {
        is_variable(self.kind)
    }

    pub fn is_parameter(&self) -> bool {
        is_parameter(self.kind)
    }
}

/// Row 20.
#[derive(Clone, Copy, Debug)]
pub struct Node {
    pub row: usize,
    pub operator: i32,
    pub b: i32,
    pub c: i32,
}

/// Row 40.
#[derive(Clone, Copy, Debug)]
pub struct Event {
    pub row: usize,
    pub machine: i32,
    pub class: i32,
    pub refined: i32,
}

/// A row that names a root: rows 30 to 32, 50 to 52, 60 and 70.
/// `event` and `identifier` are 0 where the tag has none.
#[derive(Clone, Copy, Debug)]
pub struct Formula {
    pub row: usize,
    pub tag: i32,
    pub event: i32,
    pub identifier: i32,
    pub root: i32,
}

impl Formula {
    pub fn is_action(&self) -> bool {
        self.tag == BECOMES_EQUAL || self.tag == BECOMES_SUCH_THAT
    }
}

/// A table: all rows, and the same rows by sort, each sort in table order.
#[derive(Clone, Debug, Default)]
pub struct Table {
    pub rows: Vec<Row>,
    pub identifiers: Vec<Identifier>,
    pub nodes: Vec<Node>,
    pub events: Vec<Event>,
    pub formulas: Vec<Formula>,
}

impl Table {
    pub const MOST_BYTES: usize = 65_536;
    pub const MOST_IDENTIFIERS: usize = 64;
    pub const MOST_NODES: usize = 512;
    pub const MOST_AXIOMS: usize = 16;
    pub const MOST_INVARIANTS: usize = 16;
    pub const MOST_EVENTS: usize = 32;
    pub const MOST_GUARDS: usize = 64;
    pub const MOST_ACTIONS: usize = 128;
    pub const MOST_WITNESSES: usize = 128;
    pub const MOST_VARIANTS: usize = 1;

    pub fn new(rows: Vec<Row>) -> Table {
        let mut table = Table::default();
        for (place, row) in rows.iter().enumerate() {
            table.sort_row(place + 1, *row);
        }
        table.rows = rows;
        table
    }

    fn sort_row(&mut self, row: usize, Row { tag, a, b, c }: Row) {
        let formula = |event, identifier, root| Formula {
            row,
            tag,
            event,
            identifier,
            root,
        };
        match tag {
            10 => self.identifiers.push(Identifier {
                row,
                kind: a,
                type_number: b,
                owner: c,
            }),
            20 => self.nodes.push(Node {
                row,
                operator: a,
                b,
                c,
            }),
            40 => self.events.push(Event {
                row,
                machine: a,
                class: b,
                refined: c,
            }),
            30..=32 | 70 => self.formulas.push(formula(0, 0, a)),
            50 => self.formulas.push(formula(a, 0, b)),
            51 | 52 | 60 => self.formulas.push(formula(a, b, c)),
            _ => {}
        }
    }

    /// The identifier with this number, if there is one.
    pub fn identifier(&self, number: i32) -> Option<Identifier> {
        named(&self.identifiers, number)
    }

    /// The node with this number, if there is one.
    pub fn node(&self, number: i32) -> Option<Node> {
        named(&self.nodes, number)
    }

    /// The event with this number, if there is one.
    pub fn event(&self, number: i32) -> Option<Event> {
        named(&self.events, number)
    }

    /// The numbers of a machine's variables in identifier order, shared ones among its own.
    pub fn variables(&self, machine: i32) -> Vec<i32> {
        self.of_kind(|kind| is_variable_of(machine, kind))
    }

    /// The numbers of the identifiers whose kind is wanted, in order.
    pub fn of_kind(&self, wanted: impl Fn(i32) -> bool) -> Vec<i32> {
        (1..=self.identifiers.len() as i32)
            .filter(|&number| wanted(self.identifiers[number as usize - 1].kind))
            .collect()
    }

    /// The rows with this tag, in table order.
    pub fn tagged(&self, tag: i32) -> impl Iterator<Item = &Formula> {
        self.formulas.iter().filter(move |row| row.tag == tag)
    }

    /// The event's guards, in table order.
    pub fn guards(&self, event: i32) -> impl Iterator<Item = &Formula> {
        self.tagged(GUARD).filter(move |row| row.event == event)
    }

    /// The event's witnesses, in table order.
    pub fn witnesses(&self, event: i32) -> impl Iterator<Item = &Formula> {
        self.tagged(WITNESS).filter(move |row| row.event == event)
    }

    /// The event's action for this variable, if it is assigned.
    pub fn action(&self, event: i32, variable: i32) -> Option<&Formula> {
        self.formulas
            .iter()
            .find(|row| row.is_action() && row.event == event && row.identifier == variable)
    }
}

/// Whether events of this class are new in the refinement: convergent or anticipated, matched by no abstract step.
pub fn is_new(class: i32) -> bool {
    class == CONVERGENT || class == ANTICIPATED
}

/// Whether this is the kind of a machine's variables: those of its own, and those that both machines share.
pub fn is_variable_of(machine: i32, kind: i32) -> bool {
    let own = if machine == ABSTRACT {
        ABSTRACT_VARIABLE
    } else {
        CONCRETE_VARIABLE
    };
    kind == own || kind == SHARED_VARIABLE
}

/// Whether this is the kind of either machine's variables.
pub fn is_variable(kind: i32) -> bool {
    is_variable_of(ABSTRACT, kind) || is_variable_of(CONCRETE, kind)
}

/// Whether this is the kind of either machine's parameters.
pub fn is_parameter(kind: i32) -> bool {
    kind == ABSTRACT_PARAMETER || kind == CONCRETE_PARAMETER
}

/// The kind of a machine's parameters.
pub fn parameter_kind(machine: i32) -> i32 {
    if machine == ABSTRACT {
        ABSTRACT_PARAMETER
    } else {
        CONCRETE_PARAMETER
    }
}

fn named<T: Copy>(list: &[T], number: i32) -> Option<T> {
    let place = usize::try_from(number).ok()?.checked_sub(1)?;
    list.get(place).copied()
}
