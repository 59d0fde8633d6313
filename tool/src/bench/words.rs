//! What a bench shows: its values, its events and whether they can step, and what a step would change.

use super::choice::{asked, question, Choice};
use super::{Bench, NoStep, Preview};
use crate::library::Refusal;
use crate::log::shape::{Shape, Shapes};
use crate::log::Log;
use crate::refusal::word;
use crate::replay::words::{numbered, refused_step, said};
use crate::source::Source;

/// The width that lines of values keep to.
const WIDTH: usize = 100;

/// The last step, and the values after it: constants and the refinement's variables.
pub fn state(bench: &Bench) -> String {
    let step = numbered(bench.steps());
    let step = match bench.steps() {
        0 => step,
        _ => format!("{step} ({})", bench.source.names.event(bench.last_event())),
    };
    let held = bench.shapes.of_event(bench.shapes.initial);
    let held = held.map_or(&[][..], |shape| &shape.logged);
    let values = held.iter().map(|one| one.entry(bench.value(one.number)));
    format!("after {step}:\n{}", lines_of(values.collect()))
}

/// Words with commas between them, on lines of some width.
fn lines_of(words: Vec<String>) -> String {
    let mut lines: Vec<String> = Vec::new();
    let last = words.len().saturating_sub(1);
    for (place, word) in words.into_iter().enumerate() {
        let word = if place < last { word + "," } else { word };
        match lines.last_mut() {
            Some(line) if line.chars().count() + 1 + word.chars().count() <= WIDTH => {
                line.push(' ');
                line.push_str(&word);
            }
            _ => lines.push(format!("  {word}")),
        }
    }
    lines.into_iter().map(|line| line + "\n").collect()
}

/// The events by number and name: what they ask, or whether they can step.
pub fn events(bench: &Bench) -> String {
    let names = bench.events().map(|shape| shape.name.chars().count());
    let width = names.max().unwrap_or(0);
    let line = |shape: &Shape| {
        let Shape { event, name, .. } = shape;
        format!("  {event:>2}  {name:width$}  {}\n", can_step(bench, shape))
    };
    match width {
        0 => "  there is no event to press\n".to_string(),
        _ => bench.events().map(line).collect(),
    }
}

/// What an event asks; of one that asks nothing, whether it is enabled or why it has no step.
fn can_step(bench: &Bench, shape: &Shape) -> String {
    let asked = asked(&bench.source.table, shape);
    let questions: Vec<String> = asked.into_iter().map(question).collect();
    if !questions.is_empty() {
        return format!("asks {}", questions.join(", "));
    }
    let choice = Choice {
        event: shape.event,
        answers: vec![],
    };
    match bench.preview(choice) {
        Ok(_) => "enabled".to_string(),
        Err(no_step) => format!("no step: {}", no_step.reason),
    }
}

/// What a step would change, a line for each variable.
pub fn changes(bench: &Bench, preview: &Preview) -> String {
    let shape = bench.shapes.of_event(preview.choice.event);
    let logged = shape.map_or(&[][..], |shape| &shape.logged);
    let variables = logged.iter().filter(|one| one.variable);
    let lines = variables.filter_map(|one| {
        let before = bench.value(one.number);
        let after = preview.after[one.number as usize - 1].value;
        let (name, from, to) = (&one.name, one.shown(before), one.shown(after));
        (before != after).then(|| format!("  {name}: {from} -> {to}\n"))
    });
    let lines: String = lines.collect();
    match lines.is_empty() {
        true => "  nothing changes\n".to_string(),
        false => lines,
    }
}

/// The refusal of a step that would be the next one.
pub fn refused(bench: &Bench, no_step: &NoStep) -> String {
    let NoStep { number, reason } = no_step;
    let said = refused_step(bench.steps() + 1, *number, reason);
    format!("refusal {number} ({}): {said}", word(*number))
}

/// The refusal of a bench's own log, in the words of a replay.
pub fn refused_log(source: &Source, shapes: &Shapes, bytes: Vec<u8>, refusal: Refusal) -> String {
    let log = Log::of_rows("", bytes);
    let said = said(source, shapes, &log, refusal);
    format!(
        "refusal {} ({}): {said}",
        refusal.number,
        word(refusal.number)
    )
}
