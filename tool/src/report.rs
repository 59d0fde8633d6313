//! What became of the sequents, in words: a table by event and kind, what isn't discharged, warnings.

use crate::discharge::Outcome;
use crate::names::Names;
use crate::refute::shown;
use crate::sequents::{Sequent, Spelled, KINDS};
use crate::table::Table;
use std::collections::BTreeMap;

pub fn report(outcomes: &[Outcome], sequents: &[Spelled], table: &Table, names: &Names) -> String {
    let mut text = by_event_and_kind(outcomes, sequents, table, names);
    for (spelled, outcome) in sequents.iter().zip(outcomes) {
        text += &not_discharged(&spelled.sequent, outcome, table, names);
    }
    text += &warnings(outcomes, sequents);
    let discharged = outcomes.iter().filter(|one| is_discharged(one)).count();
    text + &format!("{discharged} of {} sequents discharged\n", sequents.len())
}

pub fn is_discharged(outcome: &Outcome) -> bool {
    matches!(outcome, Outcome::Discharged(_))
}

/// How many are discharged of how many, in a row for each event and a column for each kind.
fn by_event_and_kind(
    outcomes: &[Outcome],
    sequents: &[Spelled],
    table: &Table,
    names: &Names,
) -> String {
    let mut events: Vec<String> = Vec::new();
    let mut cells: BTreeMap<(usize, i64), (usize, usize)> = BTreeMap::new();
    for (spelled, outcome) in sequents.iter().zip(outcomes) {
        let event = event_name(&spelled.sequent, table, names);
        if events.last() != Some(&event) {
            events.push(event);
        }
        let cell = cells
            .entry((events.len() - 1, spelled.sequent.kind))
            .or_default();
        cell.0 += usize::from(is_discharged(outcome));
        cell.1 += 1;
    }
    let width = events.iter().map(|event| event.chars().count()).max();
    let width = width.unwrap_or(0).max("discharged".len());
    let heads: String = KINDS.iter().map(|kind| format!("{kind:>8}")).collect();
    let mut text = format!("{:width$}{heads}\n", "discharged");
    for (place, event) in events.iter().enumerate() {
        let cells = (1..=KINDS.len() as i64).map(|kind| {
            let cell = cells
                .get(&(place, kind))
                .map(|(done, all)| format!("{done}/{all}"));
            format!("{:>8}", cell.unwrap_or_default())
        });
        let line = format!("{event:width$}{}", cells.collect::<String>());
        text += &format!("{}\n", line.trim_end());
    }
    text
}

/// An event with its machine.
fn event_name(sequent: &Sequent, table: &Table, names: &Names) -> String {
    let component = sequent.component(table, names);
    match sequent.event {
        0 => format!("{component}, no event"),
        event => format!("{component}, {}", names.event(event)),
    }
}

fn not_discharged(sequent: &Sequent, outcome: &Outcome, table: &Table, names: &Names) -> String {
    let head = sequent.line(table, names);
    match outcome {
        Outcome::Discharged(_) => String::new(),
        Outcome::Refuted(prover, values, true) => {
            format!(
                "{head}: refuted by {prover}\n{}",
                shown(values, table, names)
            )
        }
        Outcome::Refuted(prover, values, false) => {
            let values = shown(values, table, names);
            format!("{head}: refuted by {prover}, but its values don't refute the sequent: the answer is in doubt\n{values}")
        }
        Outcome::Open(said) => format!("{head}: open ({})\n", said.join("; ")),
    }
}

/// Sequents whose hypotheses contradict each other are valid, but tell nothing: by the part that completes the contradiction.
fn warnings(outcomes: &[Outcome], sequents: &[Spelled]) -> String {
    let mut parts: Vec<(&String, Vec<u64>)> = Vec::new();
    for (spelled, outcome) in sequents.iter().zip(outcomes) {
        if let Outcome::Discharged(Some(part)) = outcome {
            let k = spelled.sequent.k;
            match parts.iter_mut().find(|(other, _)| *other == part) {
                Some((_, numbers)) => numbers.push(k),
                None => parts.push((part, vec![k])),
            }
        }
    }
    let line = |(part, numbers): (&String, Vec<u64>)| format!("    {part}: {}\n", spans(&numbers));
    let lines: String = parts.into_iter().map(line).collect();
    match lines.is_empty() {
        true => lines,
        false => format!("warning: these contradict each other or the hypotheses before them, so that everything follows:\n{lines}"),
    }
}

/// Rising numbers, those that follow one another as "first to last".
fn spans(numbers: &[u64]) -> String {
    let spans = numbers.chunk_by(|one, next| one + 1 == *next);
    let spans: Vec<String> = spans
        .map(|span| match span {
            [first, .., last] => format!("{first} to {last}"),
            _ => span[0].to_string(),
        })
        .collect();
    let word = if numbers.len() == 1 {
        "sequent"
    } else {
        "sequents"
    };
    format!("{word} {}", spans.join(", "))
}
