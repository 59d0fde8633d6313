//! Places for a formula: the row that names its root, in the least table that is accepted with it.

use crate::formula::*;
use crate::generate::plan::sort_of_type;
use crate::generate::tree::Tree;
use crate::rows::{bytes_of, Row};
use crate::table::*;

/// Rows as they are added; those of one tag keep their order.
#[derive(Default)]
pub struct Sheet {
    rows: Vec<Row>,
    nodes: i32,
}

impl Sheet {
    /// The number that the next node will have.
    pub fn next(&self) -> i32 {
        self.nodes + 1
    }

    /// Adds a node and gives its number.
    pub fn node(&mut self, operator: i32, b: i32, c: i32) -> i32 {
        self.nodes += 1;
        self.rows.push(Row::new(20, operator, b, c));
        self.nodes
    }

    /// Adds the nodes of a tree, operands first, and gives the root's number.
    pub fn plant(&mut self, tree: &Tree) -> i32 {
        let operands = tree.operands.iter().map(|operand| self.plant(operand));
        let operands: Vec<i32> = operands.collect();
        let b = operands.first().copied().unwrap_or(tree.value);
        let c = operands.get(1).copied().unwrap_or(0);
        self.node(tree.operator, b, c)
    }

    /// Puts a node below others that make one sort of another. Nothing makes an integer of the other sorts.
    pub fn fit(&mut self, node: i32, from: Sort, to: Sort) -> i32 {
        match (from, to) {
            (Sort::Integer, Sort::Predicate) => {
                let one = self.node(LITERAL, 1, 0);
                self.node(AT_MOST, node, one)
            }
            (Sort::Boolean, Sort::Predicate) => {
                let truth = self.node(TRUE, 0, 0);
                self.node(EQUAL, node, truth)
            }
            (Sort::Predicate, Sort::Boolean) => self.node(BOOL, node, 0),
            (Sort::Integer, Sort::Boolean) => {
                let predicate = self.fit(node, from, Sort::Predicate);
                self.node(BOOL, predicate, 0)
            }
            _ => node,
        }
    }

    /// Gives a node its use in an axiom.
    pub fn park(&mut self, node: i32, sort: Sort) {
        let root = self.fit(node, sort, Sort::Predicate);
        self.name([AXIOM, 0, 0], root);
    }

    /// Adds a row (tag, event, target) that names the root.
    fn name(&mut self, [tag, event, target]: [i32; 3], root: i32) {
        self.rows.push(match tag {
            GUARD => Row::new(tag, event, root, 0),
            BECOMES_EQUAL | BECOMES_SUCH_THAT | WITNESS => Row::new(tag, event, target, root),
            _ => Row::new(tag, root, 0, 0),
        });
    }

    fn add(&mut self, tag: i32, list: &[[i32; 3]]) {
        let rows = list.iter().map(|&[a, b, c]| Row::new(tag, a, b, c));
        self.rows.extend(rows);
    }

    fn bytes(mut self) -> Vec<u8> {
        self.rows.sort_by_key(|row| row.tag);
        bytes_of(&self.rows)
    }
}

/// Whether a node of this sort is, or can be put below others to be, of that sort.
pub fn can_fit(from: Sort, to: Sort) -> bool {
    from == to || to != Sort::Integer
}

/// A row that names a root, and what else is in the table.
pub struct Place {
    /// Tag, event and target, 0 where the tag has none.
    pub row: [i32; 3],
    /// The sort of the root.
    pub takes: Sort,
    /// An integer and a boolean identifier that the formula may mention.
    pub present: [i32; 2],
    /// An integer and a boolean variable, whose after values it may mention if its row allows any.
    pub after: [i32; 2],
    identifiers: Vec<[i32; 3]>,
    events: Vec<[i32; 3]>,
}

impl Place {
    /// The place with a formula whose nodes are added first.
    pub fn with(&self, formula: impl FnOnce(&mut Sheet) -> i32) -> Vec<u8> {
        let mut sheet = Sheet::default();
        sheet.add(10, &self.identifiers);
        sheet.add(40, &self.events);
        let root = formula(&mut sheet);
        sheet.name(self.row, root);
        for row in self.needed() {
            let root = match self.sort(row) {
                Sort::Integer => sheet.node(LITERAL, 0, 0),
                Sort::Boolean => sheet.node(TRUE, 0, 0),
                Sort::Predicate => sheet.node(TOP, 0, 0),
            };
            sheet.name(row, root);
        }
        sheet.bytes()
    }

    /// The place with this tree as the formula.
    pub fn table(&self, tree: &Tree) -> Vec<u8> {
        self.with(|sheet| sheet.plant(tree))
    }

    /// The sort of an identifier's value, if there is one with this number.
    pub fn sort_of(&self, identifier: i32) -> Option<Sort> {
        let place = usize::try_from(identifier).ok()?.checked_sub(1)?;
        let &[_, type_number, _] = self.identifiers.get(place)?;
        Some(sort_of_type(type_number))
    }

    /// The sort of the root that a row names.
    fn sort(&self, [tag, _, target]: [i32; 3]) -> Sort {
        match tag {
            BECOMES_EQUAL => self.sort_of(target).unwrap_or(Sort::Integer),
            VARIANT => Sort::Integer,
            _ => Sort::Predicate,
        }
    }

    /// The rows without which something is missing: initial actions and witnesses, but for the place's own.
    fn needed(&self) -> Vec<[i32; 3]> {
        let mut rows = Vec::new();
        for (&[machine, class, refined], event) in self.events.iter().zip(1..) {
            for (&[kind, _, owner], target) in self.identifiers.iter().zip(1..) {
                if class == INITIALISATION && is_variable_of(machine, kind) {
                    rows.push([BECOMES_EQUAL, event, target]);
                }
                let witnessed = kind == ABSTRACT_VARIABLE
                    || kind == ABSTRACT_PARAMETER && class == ORDINARY && owner == refined;
                if machine == CONCRETE && !is_new(class) && witnessed {
                    rows.push([WITNESS, event, target]);
                }
            }
        }
        rows.retain(|&row| row != self.row);
        rows
    }
}

/// Both initialisations.
const INITIAL: [[i32; 3]; 2] = [[ABSTRACT, INITIALISATION, 0], [CONCRETE, INITIALISATION, 0]];

/// Event 4 refines event 2.
const REFINED: [[i32; 3]; 4] = [
    [ABSTRACT, INITIALISATION, 0],
    [ABSTRACT, ORDINARY, 0],
    [CONCRETE, INITIALISATION, 0],
    [CONCRETE, ORDINARY, 2],
];

/// A convergent and an anticipated event.
const NEW: [[i32; 3]; 4] = [
    [ABSTRACT, INITIALISATION, 0],
    [CONCRETE, INITIALISATION, 0],
    [CONCRETE, CONVERGENT, 0],
    [CONCRETE, ANTICIPATED, 0],
];

/// One for each sort of row that names a root, or two.
pub fn places() -> Vec<Place> {
    vec![
        axiom(),
        small([ABSTRACT_INVARIANT, 0, 0], ABSTRACT_VARIABLE, &INITIAL),
        small([CONCRETE_INVARIANT, 0, 0], CONCRETE_VARIABLE, &INITIAL),
        small([GUARD, 2, 0], SHARED_VARIABLE, &REFINED),
        small([GUARD, 4, 0], CONCRETE_VARIABLE, &REFINED),
        small([BECOMES_EQUAL, 4, 3], SHARED_VARIABLE, &REFINED),
        small([BECOMES_EQUAL, 2, 4], SHARED_VARIABLE, &REFINED),
        small([BECOMES_SUCH_THAT, 2, 3], SHARED_VARIABLE, &REFINED),
        small([BECOMES_SUCH_THAT, 4, 4], SHARED_VARIABLE, &REFINED),
        variable_witness(),
        parameter_witness(),
        small([VARIANT, 0, 0], CONCRETE_VARIABLE, &NEW),
    ]
}

/// A formula that may mention constants alone.
pub fn axiom() -> Place {
    let mut place = small([AXIOM, 0, 0], CONCRETE_VARIABLE, &INITIAL);
    place.present = [1, 2];
    place
}

/// A formula that may mention values of all sorts, after values too.
pub fn variable_witness() -> Place {
    let mut place = witness([ABSTRACT_VARIABLE, INTEGER, 0]);
    place.after = [5, 4];
    place
}

fn parameter_witness() -> Place {
    let mut place = witness([ABSTRACT_PARAMETER, INTEGER, 2]);
    place.present = [5, 4];
    place
}

/// A witness of event 4 for identifier 5.
fn witness(target: [i32; 3]) -> Place {
    let mut place = small([WITNESS, 4, 5], CONCRETE_VARIABLE, &REFINED);
    place.identifiers.push(target);
    place
}

/// A place in a table with two constants, 1 and 2, and two variables of this kind, 3 and 4: an integer and a boolean each.
fn small(row: [i32; 3], kind: i32, events: &[[i32; 3]]) -> Place {
    let identifiers = [
        [CONSTANT, INTEGER, 0],
        [CONSTANT, BOOLEAN, 0],
        [kind, INTEGER, 0],
        [kind, BOOLEAN, 0],
    ];
    place(row, &identifiers, events)
}

fn place(row: [i32; 3], identifiers: &[[i32; 3]], events: &[[i32; 3]]) -> Place {
    let mut place = Place {
        row,
        takes: Sort::Predicate,
        present: [3, 4],
        after: [3, 4],
        identifiers: identifiers.to_vec(),
        events: events.to_vec(),
    };
    place.takes = place.sort(row);
    place
}

/// How many identifiers the tables with all kinds have.
pub const KINDS: i32 = 12;

/// Places in tables with an integer and a boolean identifier of each kind.
pub fn places_with_all_kinds() -> Vec<Place> {
    let rows = [
        [AXIOM, 0, 0],
        [ABSTRACT_INVARIANT, 0, 0],
        [CONCRETE_INVARIANT, 0, 0],
        [GUARD, 2, 0],
        [GUARD, 4, 0],
        [BECOMES_EQUAL, 2, 3],
        [BECOMES_EQUAL, 4, 6],
        [BECOMES_SUCH_THAT, 2, 4],
        [BECOMES_SUCH_THAT, 4, 5],
        [BECOMES_SUCH_THAT, 4, 11],
        [WITNESS, 4, 3],
        [WITNESS, 4, 2],
        [VARIANT, 0, 0],
    ];
    rows.map(with_all_kinds).into()
}

/// A place for this row. Identifier 3 is an abstract variable, 5 and 6 are concrete ones, 7 and 8 constants, 9 is a
/// concrete parameter.
pub fn with_all_kinds(row: [i32; 3]) -> Place {
    let owned = [
        (ABSTRACT_PARAMETER, 2),
        (ABSTRACT_VARIABLE, 0),
        (CONCRETE_VARIABLE, 0),
        (CONSTANT, 0),
        (CONCRETE_PARAMETER, 4),
        (SHARED_VARIABLE, 0),
    ];
    let both = |(kind, owner)| [[kind, INTEGER, owner], [kind, BOOLEAN, owner]];
    let mut events = REFINED.to_vec();
    if row[0] == VARIANT {
        events.push([CONCRETE, CONVERGENT, 0]);
    }
    place(row, owned.map(both).as_flattened(), &events)
}
