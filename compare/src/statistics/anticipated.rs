//! Words for tables in which class 3 matters: where such events stand, what they have, and what refuses them.

use crate::checks::{variant_fits, Refusal, BAD_IDENTIFIER, EVENT, REFERENCE, SIGHT, TWICE};
use crate::table::*;

/// So many abstract variables are many: INV of a new event has form 4 of each.
const MANY: usize = 5;

/// The words for an accepted table with events of class 3.
pub fn accepted(table: &Table) -> Vec<String> {
    let anticipated = of_class(table, ANTICIPATED);
    let Some((&first, &last)) = anticipated.first().zip(anticipated.last()) else {
        return vec![];
    };
    let has_variant = table.tagged(VARIANT).next().is_some();
    let converges = !of_class(table, CONVERGENT).is_empty();
    let of_one = |row: &Formula| anticipated.contains(&row.event);
    let has = |tag: i32| table.tagged(tag).any(of_one);
    let owns = |one: &Identifier| anticipated.contains(&one.owner);
    let idle = |event: &i32| !table.formulas.iter().any(|row| row.event == *event);
    let stands_before = |class| of_class(table, class).iter().any(|&event| first < event);
    let stands_after = |class| of_class(table, class).iter().any(|&event| event < last);
    let words = [
        ("with class 2 and a variant", converges),
        ("alone, with a variant", !converges && has_variant),
        ("alone, without a variant", !converges && !has_variant),
        ("before an ordinary event", stands_before(ORDINARY)),
        ("after an ordinary event", stands_after(ORDINARY)),
        ("before a convergent event", stands_before(CONVERGENT)),
        ("after a convergent event", stands_after(CONVERGENT)),
        ("owner of a parameter", table.identifiers.iter().any(owns)),
        ("with a guard", has(GUARD)),
        ("with an action 51", has(BECOMES_EQUAL)),
        ("with an action 52", has(BECOMES_SUCH_THAT)),
        ("without guards and actions", anticipated.iter().any(idle)),
        ("INV under many abstract variables", has_long_inv(table)),
    ];
    let found = words.into_iter().filter(|one| one.1);
    found
        .map(|(word, _)| format!("accepted, class 3: {word}"))
        .collect()
}

fn has_long_inv(table: &Table) -> bool {
    let variables = table.of_kind(|kind| kind == ABSTRACT_VARIABLE);
    variables.len() >= MANY && table.tagged(CONCRETE_INVARIANT).next().is_some()
}

/// The numbers of the concrete events of a class.
fn of_class(table: &Table, class: i32) -> Vec<i32> {
    (1..=table.events.len() as i32)
        .filter(|&number| {
            let event = table.events[number as usize - 1];
            event.machine == CONCRETE && event.class == class
        })
        .collect()
}

/// The words for a table that is refused at a row about class 3.
pub fn refused(table: &Table, refusal: Refusal) -> Vec<String> {
    let word = match refusal.number {
        EVENT => bad_event(table, refusal.row),
        BAD_IDENTIFIER => bad_owner(table, refusal.row),
        REFERENCE | SIGHT | TWICE => bad_row(table, refusal.row),
        _ => None,
    };
    let number = refusal.number;
    let words = word.map(|word| format!("refused by {number}: {word}"));
    words.into_iter().collect()
}

fn bad_event(table: &Table, row: usize) -> Option<&'static str> {
    let event = table.events.iter().find(|one| one.row == row)?;
    match (event.machine, event.class) {
        (ABSTRACT, ANTICIPATED) => Some("class 3, abstract"),
        (CONCRETE, ANTICIPATED) if event.refined != 0 => Some("class 3 with a refined event"),
        (_, 4) => Some("class 4"),
        _ => None,
    }
}

fn is_anticipated(table: &Table, event: i32) -> bool {
    let found = table.event(event);
    found.is_some_and(|event| event.class == ANTICIPATED)
}

fn bad_owner(table: &Table, row: usize) -> Option<&'static str> {
    let one = table.identifiers.iter().find(|one| one.row == row)?;
    let is_owner = is_anticipated(table, one.owner) && one.kind == ABSTRACT_PARAMETER;
    is_owner.then_some("class 3 owns an abstract parameter")
}

fn bad_row(table: &Table, row: usize) -> Option<&'static str> {
    let formula = table.formulas.iter().find(|one| one.row == row)?;
    if !is_anticipated(table, formula.event) {
        return None;
    }
    match formula.tag {
        GUARD => Some("guard at class 3"),
        WITNESS => Some("witness at class 3"),
        _ => Some("action at class 3"),
    }
}

/// What check 12 misses for the variant's sake.
pub fn missing(table: &Table) -> Option<&'static str> {
    if variant_fits(table) {
        return None;
    }
    let has = |class| !of_class(table, class).is_empty();
    let has_variant = table.tagged(VARIANT).next().is_some();
    Some(match has_variant {
        true if has(ORDINARY) => "new event, with ordinary ones",
        true => "new event",
        false if has(ANTICIPATED) => "variant, with class 3",
        false => "variant",
    })
}
