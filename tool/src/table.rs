//! A table's rows by their tags: identifiers, nodes, events, and the rows that name a root.

use crate::formula::{operand_count, operator, Formula};
use crate::rows::Row;

/// The tags of a table's rows.
pub mod tag {
    pub const IDENTIFIER: i64 = 10;
    pub const NODE: i64 = 20;
    pub const AXIOM: i64 = 30;
    pub const ABSTRACT_INVARIANT: i64 = 31;
    pub const CONCRETE_INVARIANT: i64 = 32;
    pub const EVENT: i64 = 40;
    pub const GUARD: i64 = 50;
    pub const BECOMES_EQUAL: i64 = 51;
    pub const BECOMES_SUCH: i64 = 52;
    pub const WITNESS: i64 = 60;
    pub const VARIANT: i64 = 70;
}

/// The kinds of identifiers.
pub mod kind {
    pub const CONSTANT: i64 = 1;
    pub const ABSTRACT_VARIABLE: i64 = 2;
    pub const CONCRETE_VARIABLE: i64 = 3;
    pub const ABSTRACT_PARAMETER: i64 = 4;
    pub const CONCRETE_PARAMETER: i64 = 5;
    pub const SHARED_VARIABLE: i64 = 6;
}

/// The types of identifiers.
pub const INTEGER: i64 = 1;
pub const BOOLEAN: i64 = 2;

/// The classes of events.
pub mod class {
    pub const INITIALISATION: i64 = 0;
    pub const ORDINARY: i64 = 1;
    pub const CONVERGENT: i64 = 2;
    pub const ANTICIPATED: i64 = 3;
}

/// The rows of a table, all in the row form.
pub struct Table {
    pub rows: Vec<Row>,
}

impl Table {
    /// The places of the rows with this tag, counted from 0.
    pub fn places(&self, tag: i64) -> impl Iterator<Item = usize> + '_ {
        (0..self.rows.len()).filter(move |&place| self.rows[place].tag == tag)
    }

    /// The rows with this tag, with their places.
    pub fn tagged(&self, tag: i64) -> impl Iterator<Item = (usize, Row)> + '_ {
        self.places(tag).map(|place| (place, self.rows[place]))
    }

    /// The row of the identifier, node or event (by its tag) with this number.
    pub fn numbered(&self, tag: i64, number: i64) -> Option<Row> {
        let place = usize::try_from(number).ok()?.checked_sub(1)?;
        self.tagged(tag).nth(place).map(|(_, row)| row)
    }

    pub fn identifier(&self, number: i64) -> Option<Row> {
        self.numbered(tag::IDENTIFIER, number)
    }

    pub fn event(&self, number: i64) -> Option<Row> {
        self.numbered(tag::EVENT, number)
    }

    /// The rows with this tag that belong to an event.
    pub fn of_event(&self, tag: i64, event: i64) -> impl Iterator<Item = (usize, Row)> + '_ {
        self.tagged(tag).filter(move |(_, row)| row.a == event)
    }

    /// The row of an event's action for a variable.
    pub fn action(&self, event: i64, variable: i64) -> Option<usize> {
        let actions = self
            .of_event(tag::BECOMES_EQUAL, event)
            .chain(self.of_event(tag::BECOMES_SUCH, event));
        let mut wanted = actions.filter(|(_, row)| row.b == variable);
        wanted.next().map(|(place, _)| place)
    }

    /// The place of the row that names this root.
    pub fn named_by(&self, root: i64) -> Option<usize> {
        (0..self.rows.len()).find(|&place| self.root(place) == Some(root))
    }

    /// The root that a row names.
    pub fn root(&self, place: usize) -> Option<i64> {
        let row = self.rows[place];
        match row.tag {
            tag::AXIOM..=tag::CONCRETE_INVARIANT | tag::VARIANT => Some(row.a),
            tag::GUARD => Some(row.b),
            tag::BECOMES_EQUAL | tag::BECOMES_SUCH | tag::WITNESS => Some(row.c),
            _ => None,
        }
    }

    /// The formula of a node, with the nodes' numbers as its places. Nothing if some operand isn't an earlier node, or if
    /// nodes are used so often that the formula would have more than the table.
    pub fn formula(&self, node: i64) -> Option<Formula> {
        self.formula_within(node, &mut self.places(tag::NODE).count())
    }

    fn formula_within(&self, node: i64, nodes_left: &mut usize) -> Option<Formula> {
        *nodes_left = nodes_left.checked_sub(1)?;
        let row = self.numbered(tag::NODE, node)?;
        let at = node as usize;
        let operands = match operand_count(row.a) {
            0 => return Some(Formula::leaf(row.a, row.b, at)),
            1 => vec![row.b],
            _ => vec![row.b, row.c],
        };
        let mut formulas = Vec::new();
        for operand in operands {
            let earlier = (operand < node).then_some(operand)?;
            formulas.push(self.formula_within(earlier, nodes_left)?);
        }
        Some(Formula::new(row.a, formulas, at))
    }

    /// Whether a kind is that of a parameter.
    pub fn is_parameter(kind: i64) -> bool {
        kind == kind::ABSTRACT_PARAMETER || kind == kind::CONCRETE_PARAMETER
    }

    /// Whether a machine, 1 abstract or 2 concrete, has a variable of this kind.
    pub fn has_variable(machine: i64, kind: i64) -> bool {
        kind == kind::SHARED_VARIABLE || kind == machine + 1
    }

    /// The numbers of the nodes that use this node as an operand.
    pub fn users(&self, node: i64) -> Vec<i64> {
        let nodes = self.tagged(tag::NODE).enumerate();
        let uses = |row: &Row| match operand_count(row.a) {
            0 => false,
            1 => row.b == node,
            _ => row.b == node || row.c == node,
        };
        nodes
            .filter(|(_, (_, row))| uses(row))
            .map(|(place, _)| place as i64 + 1)
            .collect()
    }

    /// Whether an operator names an identifier.
    pub fn is_mention(operator: i64) -> bool {
        operator == operator::IDENTIFIER || operator == operator::AFTER
    }
}
