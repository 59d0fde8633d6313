//! The twelve checks of a table, by number, each over the whole table.

use crate::formula::{
    columns, mentions, operands, operands_fit, sort, sort_of_identifier, Columns, Sort, AFTER,
};
use crate::rows::{read_row, Row, ROW_BYTES};
use crate::table::*;

/// A refusal's number and the first offending row, counted from 1, or 0.
#[derive(Clone, Copy, Debug, PartialEq, Eq)]
pub struct Refusal {
    pub number: i32,
    pub row: usize,
}

pub const FRAME: i32 = 1;
pub const COLUMN: i32 = 2;
pub const TAG: i32 = 3;
pub const FULL: i32 = 4;
pub const EVENT: i32 = 5;
pub const BAD_IDENTIFIER: i32 = 6;
pub const REFERENCE: i32 = 7;
pub const SORT: i32 = 8;
pub const USE: i32 = 9;
pub const SIGHT: i32 = 10;
pub const TWICE: i32 = 11;
pub const MISSING: i32 = 12;
pub const SEQUENT: i32 = 13;
pub const ENTRY: i32 = 14;
pub const ROOM: i32 = 15;

/// Gives the first offending row, if there is one.
type Check = fn(&Table) -> Option<usize>;

const ROW_CHECKS: [(i32, Check); 9] = [
    (TAG, check_tag),
    (FULL, check_full),
    (EVENT, check_event),
    (BAD_IDENTIFIER, check_identifier),
    (REFERENCE, check_reference),
    (SORT, check_sort),
    (USE, check_use),
    (SIGHT, check_sight),
    (TWICE, check_twice),
];

/// The table in these bytes, or the first check that it fails.
pub fn accept(bytes: &[u8]) -> Result<Table, Refusal> {
    if bytes.len() > Table::MOST_BYTES || !bytes.len().is_multiple_of(ROW_BYTES) {
        return Err(Refusal {
            number: FRAME,
            row: 0,
        });
    }
    let table = Table::new(read_rows(bytes)?);
    for (number, check) in ROW_CHECKS {
        if let Some(row) = check(&table) {
            return Err(Refusal { number, row });
        }
    }
    if is_missing(&table) {
        return Err(Refusal {
            number: MISSING,
            row: 0,
        });
    }
    Ok(table)
}

/// Check 2: every row is in the row form.
fn read_rows(bytes: &[u8]) -> Result<Vec<Row>, Refusal> {
    let mut rows = Vec::new();
    for (place, chunk) in bytes.chunks(ROW_BYTES).enumerate() {
        rows.push(read_row(chunk).ok_or(Refusal {
            number: COLUMN,
            row: place + 1,
        })?);
    }
    Ok(rows)
}

/// Check 3: known tags that never fall, unused columns 0.
fn check_tag(table: &Table) -> Option<usize> {
    let mut last = 0;
    for (place, row) in table.rows.iter().enumerate() {
        let unused_are_zero = match row.tag {
            10 | 20 | 40 | 51 | 52 | 60 => true,
            30..=32 | 70 => row.b == 0 && row.c == 0,
            50 => row.c == 0,
            _ => return Some(place + 1),
        };
        if row.tag < last || !unused_are_zero {
            return Some(place + 1);
        }
        last = row.tag;
    }
    None
}

/// Check 4: no row above its limit. Rows 51 and 52 share one.
fn check_full(table: &Table) -> Option<usize> {
    let mut counts = [0usize; 100];
    for (place, row) in table.rows.iter().enumerate() {
        let (counted, most) = match row.tag {
            10 => (10, Table::MOST_IDENTIFIERS),
            20 => (20, Table::MOST_NODES),
            30 => (30, Table::MOST_AXIOMS),
            31 | 32 => (row.tag, Table::MOST_INVARIANTS),
            40 => (40, Table::MOST_EVENTS),
            50 => (50, Table::MOST_GUARDS),
            51 | 52 => (51, Table::MOST_ACTIONS),
            60 => (60, Table::MOST_WITNESSES),
            _ => (70, Table::MOST_VARIANTS),
        };
        counts[counted as usize] += 1;
        if counts[counted as usize] > most {
            return Some(place + 1);
        }
    }
    None
}

/// Check 5: machines in order, classes, refined events, class 0 only first of its machine.
fn check_event(table: &Table) -> Option<usize> {
    let mut last_machine = 0;
    for event in &table.events {
        let class_fits = match (event.machine, event.class) {
            (ABSTRACT | CONCRETE, INITIALISATION) => event.machine != last_machine,
            (ABSTRACT | CONCRETE, ORDINARY) => true,
            (CONCRETE, CONVERGENT | ANTICIPATED) => true,
            _ => false,
        };
        if !class_fits || event.machine < last_machine || !refined_fits(table, *event) {
            return Some(event.row);
        }
        last_machine = event.machine;
    }
    None
}

fn refined_fits(table: &Table, event: Event) -> bool {
    if event.machine == CONCRETE && event.class == ORDINARY {
        table
            .event(event.refined)
            .is_some_and(|refined| refined.machine == ABSTRACT && refined.class == ORDINARY)
    } else {
        event.refined == 0
    }
}

/// Check 6: kinds, types and owners.
fn check_identifier(table: &Table) -> Option<usize> {
    let fits = |identifier: &Identifier| {
        (CONSTANT..=SHARED_VARIABLE).contains(&identifier.kind)
            && (INTEGER..=BOOLEAN).contains(&identifier.type_number)
            && owner_fits(table, *identifier)
    };
    let bad = table.identifiers.iter().find(|&one| !fits(one))?;
    Some(bad.row)
}

fn owner_fits(table: &Table, identifier: Identifier) -> bool {
    if !identifier.is_parameter() {
        return identifier.owner == 0;
    }
    table.event(identifier.owner).is_some_and(|owner| {
        owner.class != INITIALISATION && parameter_kind(owner.machine) == identifier.kind
    })
}

/// Check 7: every number of a node or of a formula's row names something fitting.
fn check_reference(table: &Table) -> Option<usize> {
    for (place, node) in table.nodes.iter().enumerate() {
        if !node_refers(table, place as i32 + 1, *node) {
            return Some(node.row);
        }
    }
    let bad = table
        .formulas
        .iter()
        .find(|&formula| !formula_refers(table, *formula))?;
    Some(bad.row)
}

fn node_refers(table: &Table, number: i32, node: Node) -> bool {
    let earlier = |operand: i32| 1 <= operand && operand < number;
    match columns(node.operator) {
        None => false,
        Some(Columns::Nothing) => node.b == 0 && node.c == 0,
        Some(Columns::Value) => node.c == 0,
        Some(Columns::Identifier) => node.c == 0 && table.identifier(node.b).is_some(),
        Some(Columns::Variable) => {
            node.c == 0
                && table
                    .identifier(node.b)
                    .is_some_and(|one| one.is_variable())
        }
        Some(Columns::OneOperand) => node.c == 0 && earlier(node.b),
        Some(Columns::TwoOperands) => earlier(node.b) && earlier(node.c),
    }
}

fn formula_refers(table: &Table, formula: Formula) -> bool {
    if table.node(formula.root).is_none() {
        return false;
    }
    match formula.tag {
        GUARD => table
            .event(formula.event)
            .is_some_and(|event| event.class != INITIALISATION),
        BECOMES_EQUAL | BECOMES_SUCH_THAT => action_refers(table, formula).unwrap_or(false),
        WITNESS => witness_refers(table, formula).unwrap_or(false),
        _ => true,
    }
}

fn action_refers(table: &Table, action: Formula) -> Option<bool> {
    let event = table.event(action.event)?;
    let target = table.identifier(action.identifier)?;
    Some(is_variable_of(event.machine, target.kind))
}

fn witness_refers(table: &Table, witness: Formula) -> Option<bool> {
    let event = table.event(witness.event)?;
    let target = table.identifier(witness.identifier)?;
    let event_fits = event.machine == CONCRETE && !is_new(event.class);
    let target_fits = match target.kind {
        ABSTRACT_VARIABLE => true,
        ABSTRACT_PARAMETER => target.owner == event.refined,
        _ => false,
    };
    Some(event_fits && target_fits)
}

/// Check 8: operands, then roots, have the right sort.
fn check_sort(table: &Table) -> Option<usize> {
    for node in &table.nodes {
        if !operands_fit(table, *node) {
            return Some(node.row);
        }
    }
    for formula in &table.formulas {
        let wanted = match formula.tag {
            BECOMES_EQUAL => sort_of_identifier(table, formula.identifier),
            VARIANT => Sort::Integer,
            _ => Sort::Predicate,
        };
        let root = table.nodes[formula.root as usize - 1];
        if sort(table, root) != wanted {
            return Some(formula.row);
        }
    }
    None
}

/// Check 9: each node has one use, as an operand or a root.
fn check_use(table: &Table) -> Option<usize> {
    let mut uses = vec![0usize; table.nodes.len()];
    for node in &table.nodes {
        for operand in operands(*node) {
            uses[operand as usize - 1] += 1;
        }
    }
    for formula in &table.formulas {
        uses[formula.root as usize - 1] += 1;
    }
    let place = uses.iter().position(|&count| count != 1)?;
    Some(table.nodes[place].row)
}

/// Check 10: no formula mentions what it may not. No node is shared by now.
fn check_sight(table: &Table) -> Option<usize> {
    let sees_all = |formula: &Formula| {
        mentions(table, formula.root)
            .into_iter()
            .all(|node| may_mention(table, *formula, node))
    };
    let bad = table.formulas.iter().find(|&one| !sees_all(one))?;
    Some(bad.row)
}

/// Whether the formula may mention this identifier or after value.
pub fn may_mention(table: &Table, formula: Formula, node: Node) -> bool {
    if node.operator == AFTER {
        may_mention_after(table, formula, node.b)
    } else {
        may_mention_now(table, formula, node.b)
    }
}

fn may_mention_now(table: &Table, formula: Formula, number: i32) -> bool {
    let identifier = table.identifiers[number as usize - 1];
    let kind = identifier.kind;
    if kind == CONSTANT {
        return true;
    }
    match formula.tag {
        AXIOM => false,
        ABSTRACT_INVARIANT => is_variable_of(ABSTRACT, kind),
        CONCRETE_INVARIANT => is_variable(kind),
        VARIANT => is_variable_of(CONCRETE, kind),
        _ => {
            // A witness too sees its concrete event's parameters and that machine's variables.
            let event = table.events[formula.event as usize - 1];
            let own_parameter = identifier.is_parameter() && identifier.owner == formula.event;
            let present = is_variable_of(event.machine, kind) && event.class != INITIALISATION;
            let witnessed = formula.tag == WITNESS
                && kind == ABSTRACT_PARAMETER
                && number == formula.identifier;
            own_parameter || present || witnessed
        }
    }
}

fn may_mention_after(table: &Table, formula: Formula, number: i32) -> bool {
    match formula.tag {
        BECOMES_SUCH_THAT => number == formula.identifier,
        WITNESS => {
            let target = table.identifiers[formula.identifier as usize - 1];
            let mentioned = table.identifiers[number as usize - 1];
            target.is_variable()
                && (number == formula.identifier || is_variable_of(CONCRETE, mentioned.kind))
        }
        _ => false,
    }
}

/// Check 11: no second action or witness for one target.
fn check_twice(table: &Table) -> Option<usize> {
    for (place, formula) in table.formulas.iter().enumerate() {
        let again = |before: &Formula| {
            let same_sort = (formula.is_action() && before.is_action())
                || (formula.tag == WITNESS && before.tag == WITNESS);
            same_sort && before.event == formula.event && before.identifier == formula.identifier
        };
        if table.formulas[..place].iter().any(again) {
            return Some(formula.row);
        }
    }
    None
}

/// Check 12: initialisations, initial actions, witnesses, and variant and new events where one asks for the other.
fn is_missing(table: &Table) -> bool {
    !variant_fits(table)
        || [ABSTRACT, CONCRETE]
            .into_iter()
            .any(|machine| initial_is_missing(table, machine))
        || (1..=table.events.len() as i32).any(|event| witness_is_missing(table, event))
}

/// A variant stands with convergent or anticipated events; convergent ones ask for it, anticipated ones alone don't.
pub fn variant_fits(table: &Table) -> bool {
    if table.tagged(VARIANT).next().is_some() {
        table.events.iter().any(|event| is_new(event.class))
    } else {
        table.events.iter().all(|event| event.class != CONVERGENT)
    }
}

fn initial_is_missing(table: &Table, machine: i32) -> bool {
    match initialisation(table, machine) {
        None => true,
        Some(event) => table
            .variables(machine)
            .into_iter()
            .any(|variable| table.action(event, variable).is_none()),
    }
}

fn witness_is_missing(table: &Table, number: i32) -> bool {
    let event = table.events[number as usize - 1];
    if event.machine != CONCRETE || is_new(event.class) {
        return false;
    }
    table.identifiers.iter().enumerate().any(|(place, one)| {
        let wanted = one.kind == ABSTRACT_VARIABLE
            || (one.kind == ABSTRACT_PARAMETER && one.owner == event.refined);
        let target = place as i32 + 1;
        wanted && !table.witnesses(number).any(|row| row.identifier == target)
    })
}

/// The number of a machine's initialisation, if it has one.
pub fn initialisation(table: &Table, machine: i32) -> Option<i32> {
    let place = table
        .events
        .iter()
        .position(|event| event.machine == machine && event.class == INITIALISATION)?;
    Some(place as i32 + 1)
}
