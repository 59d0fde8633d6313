//! Where the rows of a table stand, and how near it is to a refusal: words for what a table has, to be counted.

use super::{anticipated, left_out, shared};
use crate::checks::{initialisation, Refusal, FULL, MISSING, TAG, TWICE, USE};
use crate::formula::operands;
use crate::generate::sections::TAGS;
use crate::rows::Row;
use crate::shrink::rows_of;
use crate::table::*;

/// The words for a table. An accepted one has those for each section too.
pub fn shapes(bytes: &[u8], refusal: Option<Refusal>) -> Vec<String> {
    let Some(rows) = rows_of(bytes) else {
        return vec![];
    };
    let table = Table::new(rows);
    match refusal {
        None => accepted(&table),
        Some(refusal) => refused(&table, refusal),
    }
}

/// The tags without rows.
pub fn empty_sections(table: &Table) -> Vec<i32> {
    TAGS.into_iter()
        .filter(|&tag| section(table, tag).is_empty())
        .collect()
}

fn section(table: &Table, tag: i32) -> Vec<Row> {
    let rows = table.rows.iter().copied();
    rows.filter(|row| row.tag == tag).collect()
}

/// The limit of a tag; rows 51 and 52 share theirs.
fn limit(tag: i32) -> usize {
    match tag {
        10 => Table::MOST_IDENTIFIERS,
        20 => Table::MOST_NODES,
        30 => Table::MOST_AXIOMS,
        31 | 32 => Table::MOST_INVARIANTS,
        40 => Table::MOST_EVENTS,
        50 => Table::MOST_GUARDS,
        51 | 52 => Table::MOST_ACTIONS,
        60 => Table::MOST_WITNESSES,
        _ => Table::MOST_VARIANTS,
    }
}

/// How many rows count against the limit of this tag.
fn counted(table: &Table, tag: i32) -> usize {
    match tag {
        51 | 52 => section(table, 51).len() + section(table, 52).len(),
        _ => section(table, tag).len(),
    }
}

fn accepted(table: &Table) -> Vec<String> {
    let mut words = Vec::new();
    let mut limits = 0;
    for tag in TAGS {
        let rows = section(table, tag).len();
        match rows {
            0 => words.push(format!("accepted, section {tag}: empty")),
            1 => words.push(format!("accepted, section {tag}: one row")),
            _ => {}
        }
        if rows > 1 && counted(table, tag) == limit(tag) {
            words.push(format!("accepted, section {tag}: at its limit"));
            limits += 1;
        }
    }
    if limits == 1 && empty_sections(table).len() >= 5 {
        words.push("accepted, one section at its limit, five or more empty".to_string());
    }
    let flags = [
        ("an event without actions", has_idle_event(table)),
        ("all actions of the last event", acts_last(table, |_| true)),
        (
            "all actions but initial ones of the last event",
            acts_last(table, |event| event.class != INITIALISATION),
        ),
        (
            "actions of events interleaved",
            is_interleaved(table, 51) || is_interleaved(table, 52),
        ),
        ("51 and 52 of one event apart", has_action_apart(table)),
        ("guards interleaved", is_interleaved(table, GUARD)),
        ("witnesses interleaved", is_interleaved(table, WITNESS)),
        ("one target of two events", has_shared_target(table)),
        ("the last row's root is node 1", ends_with_first_node(table)),
    ];
    let found = flags.into_iter().filter(|one| one.1);
    words.extend(found.map(|(word, _)| format!("accepted, {word}")));
    words.extend(anticipated::accepted(table));
    words.extend(shared::accepted(table));
    words.extend(left_out::accepted(table));
    words
}

fn actions(table: &Table) -> Vec<Formula> {
    let rows = table.formulas.iter().copied();
    rows.filter(Formula::is_action).collect()
}

fn has_idle_event(table: &Table) -> bool {
    let actions = actions(table);
    let acts = |event: i32| actions.iter().any(|row| row.event == event);
    !actions.is_empty() && (1..=table.events.len() as i32).any(|event| !acts(event))
}

/// Whether there are two or more actions of such events, all of the last event.
fn acts_last(table: &Table, counts: impl Fn(Event) -> bool) -> bool {
    let mut actions = actions(table);
    actions.retain(|row| counts(table.events[row.event as usize - 1]));
    let last = table.events.len() as i32;
    actions.len() > 1 && actions.iter().all(|row| row.event == last)
}

/// Whether some event's rows of this tag have another event's between them.
fn is_interleaved(table: &Table, tag: i32) -> bool {
    let events: Vec<i32> = section(table, tag).iter().map(|row| row.a).collect();
    (2..events.len()).any(|last| {
        let first = events[..last].iter().position(|&one| one == events[last]);
        first.is_some_and(|first| events[first..last].iter().any(|&one| one != events[last]))
    })
}

fn has_action_apart(table: &Table) -> bool {
    let actions = actions(table);
    let tagged = |event: i32, tag: i32| {
        actions
            .iter()
            .position(|row| row.event == event && row.tag == tag)
    };
    (1..=table.events.len() as i32).any(|event| {
        let both = tagged(event, 51).zip(tagged(event, 52));
        both.is_some_and(|(first, last)| actions[first..last].iter().any(|row| row.event != event))
    })
}

fn has_shared_target(table: &Table) -> bool {
    let actions = actions(table);
    let shares = |row: &Formula| {
        let targets = actions
            .iter()
            .filter(|one| one.identifier == row.identifier);
        targets.count() > 1
    };
    actions.iter().any(shares)
}

fn ends_with_first_node(table: &Table) -> bool {
    table.formulas.last().is_some_and(|row| row.root == 1)
}

fn refused(table: &Table, refusal: Refusal) -> Vec<String> {
    let mut words = match refusal.number {
        TAG => falling(table),
        FULL => above(table, refusal.row),
        USE => uses(table, refusal.row),
        TWICE => twice(table, refusal.row),
        MISSING => missing(table),
        _ => vec![],
    };
    if refusal.number > FULL {
        let full = |&tag: &i32| limit(tag) > 1 && counted(table, tag) == limit(tag);
        let words_of = |tag| format!("refused after 4, section {tag}: at its limit");
        words.extend(TAGS.into_iter().filter(full).map(words_of));
    }
    words.extend(anticipated::refused(table, refusal));
    words.extend(shared::refused(table, refusal));
    words
}

fn falling(table: &Table) -> Vec<String> {
    let falls = table.rows.windows(2).filter(|two| two[1].tag < two[0].tag);
    let known = table.rows.iter().all(|row| TAGS.contains(&row.tag));
    match falls.count() {
        1 if known => vec!["refused by 3: known tags fall once".to_string()],
        _ => vec!["refused by 3: otherwise".to_string()],
    }
}

fn above(table: &Table, row: usize) -> Vec<String> {
    let tag = table.rows[row - 1].tag;
    let both = tag == 52 && !section(table, 51).is_empty();
    let words = match counted(table, tag) - limit(tag) {
        1 => "one above the limit",
        _ => "more above the limit",
    };
    let with = if both { " with rows 51" } else { "" };
    vec![format!("refused by 4, section {tag}{with}: {words}")]
}

fn uses(table: &Table, row: usize) -> Vec<String> {
    let place = table.nodes.iter().position(|node| node.row == row);
    let number = place.expect("the row is a node's") as i32 + 1;
    let operands = table.nodes.iter().flat_map(|node| operands(*node));
    let as_operand = operands.filter(|&one| one == number).count();
    let roots: Vec<usize> = (0..table.formulas.len())
        .filter(|&place| table.formulas[place].root == number)
        .collect();
    let mut words = vec![match as_operand + roots.len() {
        0 => "refused by 9: no use".to_string(),
        2 => "refused by 9: two uses".to_string(),
        _ => "refused by 9: more uses".to_string(),
    }];
    if as_operand + roots.len() > 1 && roots.last() == Some(&(table.formulas.len() - 1)) {
        words.push("refused by 9: more than one use, the last in the last row".to_string());
    }
    if table.nodes.len() == number as usize {
        words.push("refused by 9: the last node".to_string());
    }
    words
}

/// Rows so far from each other are far apart.
const FAR: usize = 10;

fn twice(table: &Table, row: usize) -> Vec<String> {
    let second = table.formulas.iter().find(|one| one.row == row);
    let second = second.expect("the row names a root");
    let first = table.formulas.iter().find(|one| {
        (one.tag == WITNESS) == (second.tag == WITNESS)
            && one.tag > GUARD
            && one.event == second.event
            && one.identifier == second.identifier
    });
    let first = first.expect("the second has a first");
    let tags = format!("refused by 11: {} and {}", first.tag, second.tag);
    if second.row - first.row >= FAR {
        return vec![format!("{tags}, far apart"), tags];
    }
    vec![tags]
}

/// What check 12 asks for and doesn't find.
fn missing(table: &Table) -> Vec<String> {
    let mut found: Vec<String> = Vec::new();
    for (machine, name) in [(ABSTRACT, "abstract"), (CONCRETE, "concrete")] {
        match initialisation(table, machine) {
            None => found.push(format!("{name} initialisation")),
            Some(event) => {
                let mut unassigned = table.variables(machine);
                unassigned.retain(|&variable| table.action(event, variable).is_none());
                found.extend(unassigned.iter().map(|&variable| {
                    let shared = shared::is_shared(table, variable);
                    let kind = if shared { ", kind 6" } else { "" };
                    format!("{name} initial action{kind}")
                }));
            }
        }
    }
    for number in 1..=table.events.len() as i32 {
        found.extend(missing_witnesses(table, number));
    }
    found.extend(anticipated::missing(table).map(str::to_string));
    if let [one] = &found[..] {
        return vec![format!("refused by 12, alone: {one}")];
    }
    let both = [
        "abstract initial action, kind 6",
        "concrete initial action, kind 6",
    ];
    if found == both && shared::unset_in_both(table) {
        return vec!["refused by 12, alone: both initial actions, kind 6".to_string()];
    }
    vec!["refused by 12: several".to_string()]
}

fn missing_witnesses(table: &Table, number: i32) -> Vec<String> {
    let event = table.events[number as usize - 1];
    if event.machine != CONCRETE || is_new(event.class) {
        return vec![];
    }
    let mut found = Vec::new();
    for (place, one) in table.identifiers.iter().enumerate() {
        let target = place as i32 + 1;
        if table.witnesses(number).any(|row| row.identifier == target) {
            continue;
        }
        let initial = event.class == INITIALISATION;
        match one.kind {
            ABSTRACT_VARIABLE if initial => found.push("variable witness, initial"),
            ABSTRACT_VARIABLE => found.push("variable witness, ordinary"),
            ABSTRACT_PARAMETER if one.owner == event.refined => found.push("parameter witness"),
            _ => {}
        }
    }
    found.into_iter().map(str::to_string).collect()
}
