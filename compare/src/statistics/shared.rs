//! Words for tables in which kind 6 matters: where shared variables stand, what sets and mentions them, and what refuses them.

use crate::checks::{
    initialisation, may_mention, Refusal, BAD_IDENTIFIER, REFERENCE, SIGHT, TWICE,
};
use crate::formula::{mentions, AFTER};
use crate::table::*;

/// Whether the identifier is a shared variable.
pub fn is_shared(table: &Table, number: i32) -> bool {
    let found = table.identifier(number);
    found.is_some_and(|one| one.kind == SHARED_VARIABLE)
}

/// The words for an accepted table, with shared variables or without.
pub fn accepted(table: &Table) -> Vec<String> {
    let shared = table.of_kind(|kind| kind == SHARED_VARIABLE);
    if shared.is_empty() {
        let variables = !table.of_kind(is_variable).is_empty();
        let word = "accepted, variables without kind 6".to_string();
        return variables.then_some(word).into_iter().collect();
    }
    let mut words = kinds(table, &shared);
    words.extend(settings(table));
    words.extend(table.formulas.iter().flat_map(|one| places(table, *one)));
    words.sort();
    words.dedup();
    let named = words.into_iter();
    named
        .map(|word| format!("accepted, kind 6: {word}"))
        .collect()
}

/// How they stand to the other variables, and their types.
fn kinds(table: &Table, shared: &[i32]) -> Vec<String> {
    let has = |wanted: i32| !table.of_kind(|kind| kind == wanted).is_empty();
    let typed = |wanted: i32| {
        let mut types = shared
            .iter()
            .map(|&one| table.identifiers[one as usize - 1]);
        types.any(|one| one.type_number == wanted)
    };
    let (two, three) = (has(ABSTRACT_VARIABLE), has(CONCRETE_VARIABLE));
    let words = [
        ("any", true),
        ("beside kinds 2 and 3", two && three),
        ("beside kind 2 alone", two && !three),
        ("beside kind 3 alone", !two && three),
        ("without other variables", !two && !three),
        ("mixed with kind 2 by number", is_mixed(table, ABSTRACT)),
        ("mixed with kind 3 by number", is_mixed(table, CONCRETE)),
        ("integer", typed(INTEGER)),
        ("boolean", typed(BOOLEAN)),
        ("64 of them", shared.len() == Table::MOST_IDENTIFIERS),
    ];
    let found = words.into_iter().filter(|one| one.1);
    found.map(|(word, _)| word.to_string()).collect()
}

/// Whether a machine's own variables and shared ones stand in more than two groups, by number.
fn is_mixed(table: &Table, machine: i32) -> bool {
    let variables = table.variables(machine);
    let changes = variables
        .windows(2)
        .filter(|two| is_shared(table, two[0]) != is_shared(table, two[1]));
    changes.count() > 1
}

/// The events that set a shared variable, besides the initialisations.
fn settings(table: &Table) -> Vec<String> {
    let actions = table.formulas.iter().filter(|row| row.is_action());
    let actions = actions.filter(|row| is_shared(table, row.identifier));
    let mut words = Vec::new();
    for action in actions {
        let event = table.events[action.event as usize - 1];
        let word = match (event.machine, event.class) {
            (_, INITIALISATION) => continue,
            (ABSTRACT, _) => "abstract",
            (_, ORDINARY) => "ordinary",
            (_, CONVERGENT) => "convergent",
            _ => "anticipated",
        };
        words.push(format!("set by an event, {word}, {}", action.tag));
    }
    if words.is_empty() {
        words.push("set by initialisations alone".to_string());
    }
    words
}

/// Where a formula stands, for the words about what it mentions.
pub fn standing(table: &Table, formula: Formula) -> String {
    let event = table.event(formula.event);
    let initial = event.is_some_and(|event| event.class == INITIALISATION);
    let machine = match event {
        Some(event) if event.machine == ABSTRACT => "abstract ",
        Some(_) => "concrete ",
        None => "",
    };
    let at = if initial { ", initial" } else { "" };
    match formula.tag {
        WITNESS => {
            let target = table.identifier(formula.identifier);
            match target.is_some_and(|one| one.is_parameter()) {
                true => "parameter witness".to_string(),
                false => format!("variable witness{at}"),
            }
        }
        tag => format!("{machine}{tag}{at}"),
    }
}

/// The words for what a formula mentions of shared variables.
fn places(table: &Table, formula: Formula) -> Vec<String> {
    let stands = standing(table, formula);
    let mentioned = mentions(table, formula.root).into_iter();
    let shared = mentioned.filter(|node| is_shared(table, node.b));
    shared
        .map(|node| format!("{} value in {stands}", value(node)))
        .collect()
}

fn value(node: Node) -> &'static str {
    match node.operator {
        AFTER => "after",
        _ => "present",
    }
}

/// The words for a table that is refused at a row about kind 6, or near it.
pub fn refused(table: &Table, refusal: Refusal) -> Vec<String> {
    let row = refusal.row;
    let word = match refusal.number {
        BAD_IDENTIFIER => bad_identifier(table, row).map(str::to_string),
        REFERENCE | TWICE => bad_row(table, row).map(str::to_string),
        SIGHT => unseen(table, row),
        _ => None,
    };
    let number = refusal.number;
    let words = word.map(|word| format!("refused by {number}: {word}"));
    words.into_iter().collect()
}

fn bad_identifier(table: &Table, row: usize) -> Option<&'static str> {
    let one = table.identifiers.iter().find(|one| one.row == row)?;
    match one.kind {
        0 => Some("kind 0"),
        7 => Some("kind 7"),
        SHARED_VARIABLE if one.owner != 0 => Some("kind 6 with an owner"),
        SHARED_VARIABLE => Some("kind 6, type"),
        _ => None,
    }
}

fn bad_row(table: &Table, row: usize) -> Option<&'static str> {
    let formula = table.formulas.iter().find(|one| one.row == row)?;
    match formula.tag {
        _ if !is_shared(table, formula.identifier) => None,
        WITNESS => Some("witness for kind 6"),
        _ => Some("action for kind 6"),
    }
}

/// The first value of a shared variable that the formula in this row may not mention.
fn unseen(table: &Table, row: usize) -> Option<String> {
    let formula = *table.formulas.iter().find(|one| one.row == row)?;
    let mentioned = mentions(table, formula.root).into_iter();
    let mut unseen = mentioned.filter(|node| !may_mention(table, formula, *node));
    let node = unseen.find(|node| is_shared(table, node.b))?;
    let stands = standing(table, formula);
    Some(format!("{} value of kind 6 in {stands}", value(node)))
}

/// Whether neither initialisation sets some one shared variable.
pub fn unset_in_both(table: &Table) -> bool {
    let initial = [ABSTRACT, CONCRETE].map(|machine| initialisation(table, machine).unwrap_or(0));
    let unset = |variable: &i32| {
        let mut actions = initial.iter().map(|&event| table.action(event, *variable));
        actions.all(|action| action.is_none())
    };
    table
        .of_kind(|kind| kind == SHARED_VARIABLE)
        .iter()
        .any(unset)
}
