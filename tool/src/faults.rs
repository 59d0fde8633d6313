//! What is wrong with a row that the library refuses, by the rule that it breaks.

use crate::formula::{operand_count, operator, sign, Formula, Mention};
use crate::refusal::described_mention;
use crate::rows::Row;
use crate::source::Source;
use crate::table::{class, kind, tag, Table, BOOLEAN, INTEGER};

/// The most nodes of a formula that a message shows.
const MOST_SHOWN: usize = 40;

/// Refusal 3.
pub fn of_tag(table: &Table, place: usize) -> String {
    let tag = table.rows[place].tag;
    let before = place
        .checked_sub(1)
        .map_or(0, |before| table.rows[before].tag);
    match tag {
        10 | 20 | 30..=32 | 40 | 50..=52 | 60 | 70 if tag < before => {
            format!("tag {tag} after tag {before}, where tags never fall")
        }
        10 | 20 | 30..=32 | 40 | 50..=52 | 60 | 70 => {
            format!("a column that tag {tag} doesn't use isn't 0")
        }
        _ => "there is no such tag".to_string(),
    }
}

/// Refusal 5.
pub fn of_event(table: &Table, place: usize) -> &'static str {
    let row = table.rows[place];
    let late = table.rows[..place]
        .iter()
        .any(|before| before.tag == tag::EVENT && before.a == 2);
    match (row.a, row.b, row.c) {
        (..=0 | 3.., _, _) => "its machine is neither 1, the abstract one, nor 2, its refinement",
        (_, ..=-1 | 4.., _) => "its class isn't one of 0 to 3",
        (1, _, _) if late => "an event of the abstract machine stands after one of the refinement",
        (1, class::CONVERGENT | class::ANTICIPATED, _) => "the abstract machine has no convergent or anticipated events",
        (_, class::INITIALISATION, _) => "an INITIALISATION is the first event of its machine, and refines nothing",
        (1, _, _) => "an event of the abstract machine refines nothing",
        (_, class::ORDINARY, 0) => "an ordinary event of the refinement refines an abstract event; a new one is convergent or anticipated",
        (_, class::ORDINARY, _) => "it refines an event that is no ordinary one of the abstract machine",
        _ => "a convergent or anticipated event refines nothing",
    }
}

/// Refusal 6.
pub fn of_identifier(table: &Table, row: Row) -> &'static str {
    let parameter = Table::is_parameter(row.a);
    match (row.a, row.b, table.event(row.c)) {
        (..=0 | 7.., _, _) => "its kind isn't one of 1 to 6",
        (_, ..=0 | 3.., _) => "its type is neither 1, integer, nor 2, boolean",
        _ if !parameter => "only a parameter has an owning event",
        (_, _, None) => "its event isn't there",
        (_, _, Some(event)) if event.b == class::INITIALISATION => {
            "an INITIALISATION has no parameters"
        }
        _ => "its event is of the other machine",
    }
}

/// Refusal 7.
pub fn of_reference(source: &Source, place: usize) -> String {
    let table = &source.table;
    let row = table.rows[place];
    if row.tag == tag::NODE {
        return of_node(source, row);
    }
    let root = table.root(place).unwrap_or(0);
    if table.numbered(tag::NODE, root).is_none() {
        return format!("its root {root} is no node");
    }
    let Some(event) = table.event(row.a) else {
        return "its event isn't there".to_string();
    };
    match row.tag {
        tag::GUARD => "an INITIALISATION has no guards".to_string(),
        tag::WITNESS if !is_refining(event) => {
            "a witness stands at the refinement's INITIALISATION or an event that refines one"
                .to_string()
        }
        tag::WITNESS => format!(
            "it is for {}; a witness is for a variable of the abstract machine alone, or for a parameter of the refined event",
            named(source, row.b)
        ),
        _ => format!(
            "it sets {}; an event sets variables of its own machine",
            named(source, row.b)
        ),
    }
}

/// Whether an event is the refinement's initialisation or refines one.
pub fn is_refining(event: Row) -> bool {
    event.a == 2 && [class::INITIALISATION, class::ORDINARY].contains(&event.b)
}

fn of_node(source: &Source, row: Row) -> String {
    let kind = source.table.identifier(row.b).map(|row| row.a);
    match (row.a, kind) {
        (operator::IDENTIFIER | operator::AFTER, None) => {
            format!("no identifier has number {}", row.b)
        }
        (operator::AFTER, Some(kind)) if kind == kind::CONSTANT || Table::is_parameter(kind) => {
            let named = named(source, row.b);
            format!("{named} has no after value; only a variable has one")
        }
        _ => "an unknown operator, a column that isn't 0, or an operand that isn't an earlier node"
            .to_string(),
    }
}

/// An identifier with its kind.
fn named(source: &Source, number: i64) -> String {
    let identifier = usize::try_from(number).unwrap_or(0);
    let after = false;
    described_mention(source, Mention { identifier, after })
}

/// The sort of a formula: integer, boolean or predicate.
fn sort(table: &Table, node: i64) -> Option<&'static str> {
    let row = table.numbered(tag::NODE, node)?;
    let sort = match row.a {
        operator::IDENTIFIER | operator::AFTER => match table.identifier(row.b)?.b {
            INTEGER => "an integer",
            _ => "a boolean",
        },
        operator::TRUE..=operator::BOOL => "a boolean",
        operator::LITERAL | operator::PLUS..=operator::NEGATION => "an integer",
        _ => "a predicate",
    };
    Some(sort)
}

/// Refusal 8: what an operand or a root is, and what is wanted.
pub fn of_sort(source: &Source, row: Row) -> String {
    let table = &source.table;
    let boolean = |number| table.identifier(number).is_some_and(|row| row.b == BOOLEAN);
    let wanted = match (row.tag, row.a) {
        (tag::NODE, operator::EQUAL) => "two integers or two booleans",
        (tag::NODE, operator::PLUS..=operator::NEGATION | operator::LESS | operator::AT_MOST) => {
            "an integer"
        }
        (tag::BECOMES_EQUAL, _) if boolean(row.b) => "a boolean",
        (tag::BECOMES_EQUAL | tag::VARIANT, _) => "an integer",
        _ => "a predicate",
    };
    let operands = match row.tag {
        tag::NODE if operand_count(row.a) == 1 => vec![row.b],
        tag::NODE => vec![row.b, row.c],
        tag::GUARD => vec![row.b],
        tag::BECOMES_EQUAL | tag::BECOMES_SUCH | tag::WITNESS => vec![row.c],
        _ => vec![row.a],
    };
    let faulty = operands
        .iter()
        .filter_map(|&node| Some((node, sort(table, node)?)))
        .filter(|(_, sort)| *sort != wanted)
        .map(|(node, sort)| format!("`{}` is {sort}", shown(source, node)));
    let verb = if wanted.starts_with("two") {
        "are"
    } else {
        "is"
    };
    let faulty: Vec<String> = faulty.collect();
    format!("{}, where {wanted} {verb} wanted", faulty.join(", "))
}

/// A formula as the model writes it; of a long one, or one that uses nodes twice and would be longer still, its sign.
fn shown(source: &Source, node: i64) -> String {
    let table = &source.table;
    let mut left = MOST_SHOWN;
    let short = is_short(table, node, &mut left).then(|| table.formula(node));
    match short.flatten() {
        Some(formula) => source.names.written(&formula, table),
        None => {
            let row = table.numbered(tag::NODE, node);
            format!(".. {} ..", row.map_or("", |row| sign(row.a)))
        }
    }
}

/// Whether a formula has at most `left` nodes, which are counted off.
fn is_short(table: &Table, node: i64, left: &mut usize) -> bool {
    let row = table.numbered(tag::NODE, node);
    let (Some(row), 1..) = (row, *left) else {
        return false;
    };
    *left -= 1;
    let operands = [row.b, row.c];
    let operands = operands.iter().take(operand_count(row.a));
    operands
        .copied()
        .all(|operand| is_short(table, operand, left))
}

/// Refusal 9.
pub fn of_use(table: &Table, place: usize) -> &'static str {
    let nodes = table.places(tag::NODE).filter(|&other| other <= place);
    let node = nodes.count() as i64;
    let mut roots = (0..table.rows.len()).filter(|&place| table.root(place) == Some(node));
    match table.users(node).is_empty() && roots.next().is_none() {
        true => "no row uses this node",
        false => "this node is used more than once",
    }
}

/// Refusal 10: what a formula mentions, and what it may.
pub fn of_sight(source: &Source, place: usize) -> String {
    let table = &source.table;
    let formula = table.root(place).and_then(|root| table.formula(root));
    let mentions = formula.as_ref().map_or(vec![], Formula::free);
    let shown: Vec<String> = mentions
        .into_iter()
        .filter(|&mention| !is_in_sight(table, place, mention))
        .map(|mention| described_mention(source, mention))
        .collect();
    format!(
        "it mentions {}; it may mention {}",
        shown.join(", "),
        in_sight(table, place)
    )
}

/// Whether the formula whose root a row names may mention this.
fn is_in_sight(table: &Table, place: usize, mention: Mention) -> bool {
    let row = table.rows[place];
    let of_event = (tag::GUARD..=tag::WITNESS).contains(&row.tag);
    let event = table.event(row.a).filter(|_| of_event);
    let initial = event.is_some_and(|event| event.b == class::INITIALISATION);
    let identifier = table.identifier(mention.identifier as i64);
    let (kind, owner) = identifier.map_or((0, 0), |row| (row.a, row.c));
    let own = mention.identifier as i64 == row.b;
    let machine = match row.tag {
        tag::ABSTRACT_INVARIANT => 1,
        tag::WITNESS | tag::VARIANT => 2,
        _ => event.map_or(0, |event| event.a),
    };
    let variable = Table::has_variable(machine, kind);
    let parameter = |number| {
        let identifier = table.identifier(number);
        identifier.is_some_and(|row| Table::is_parameter(row.a))
    };
    match (row.tag, mention.after) {
        (_, false) if kind == kind::CONSTANT => true,
        (tag::AXIOM, _) => false,
        (tag::BECOMES_SUCH, true) => own,
        (tag::WITNESS, true) => !parameter(row.b) && (variable || own),
        (_, true) => false,
        (tag::WITNESS, _) if parameter(row.b) && own => true,
        _ if Table::is_parameter(kind) => event.is_some() && owner == row.a,
        (tag::CONCRETE_INVARIANT, _) => true,
        _ => variable && !initial,
    }
}

fn in_sight(table: &Table, place: usize) -> &'static str {
    let row = table.rows[place];
    let event = table.event(row.a);
    let initial = event.is_some_and(|event| event.b == class::INITIALISATION);
    let parameter = |number| {
        table
            .identifier(number)
            .is_some_and(|row| Table::is_parameter(row.a))
    };
    match row.tag {
        tag::AXIOM => "constants",
        tag::ABSTRACT_INVARIANT => "constants and the abstract machine's variables, without a prime",
        tag::CONCRETE_INVARIANT => "constants and variables, without a prime",
        tag::VARIANT => "constants and the refinement's variables, without a prime",
        tag::BECOMES_EQUAL if initial => "constants: before an INITIALISATION no variable has a value",
        tag::BECOMES_SUCH if initial => "constants and the after value that it sets",
        tag::WITNESS if initial => "constants, the refinement's after values and its own",
        tag::GUARD | tag::BECOMES_EQUAL => "constants, the event's parameters and its machine's variables, without a prime",
        tag::BECOMES_SUCH => "constants, the event's parameters, its machine's variables and the after value that it sets",
        tag::WITNESS if parameter(row.b) => "constants, the refinement's variables without a prime, the event's parameters and its own parameter",
        _ => "constants, the refinement's variables and after values, the event's parameters and its own after value",
    }
}

/// Refusal 11.
pub fn of_target(source: &Source, row: Row) -> String {
    let target = source.names.own_name(row.b as usize);
    let prime = match source.table.identifier(row.b) {
        Some(row) if row.a == kind::ABSTRACT_VARIABLE => "'",
        _ => "",
    };
    match row.tag {
        tag::WITNESS => format!("its event has a witness for {target}{prime} already"),
        _ => format!("its event sets {target} already"),
    }
}
