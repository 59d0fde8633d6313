//! A session at the bench: the start's questions, then a line for each choice, until `quit` or the end of input.

use super::choice::{asked, Choice};
use super::lines::Lines;
use super::questions::{ask_all, GIVE_UP, LEAVE};
use super::start::asked_at_start;
use super::{words, Bench, Preview};
use crate::log::shape::Shapes;
use crate::log::write::write_rows;
use crate::notation::token::quoted;
use crate::replay::words::{cannot_step, numbered};
use crate::source::Source;
use std::io::Result;

/// What can be typed.
const HELP: &str = "what can be typed:
  an event's number or name  asks what it needs, shows what it would change, and presses it after a y
  undo                       takes the last press back
  log PATH                   writes the run as a log; log! PATH writes over a file
  state                      the values
  events                     the events: what they ask, or whether they can step
  run                        the steps so far
  help                       these lines
  quit                       leaves; presses that aren't written are shown";

/// The same in a line, for words that are none of these.
const WORDS: &str =
    "an event's number or name, undo, log PATH, log! PATH, state, events, run, help, quit";

/// Asks for what the initialisation needs until the library accepts it; nothing if that doesn't come.
pub fn start<'a>(
    lines: &mut Lines,
    source: &'a Source,
    shapes: &'a Shapes,
) -> Result<Option<Bench<'a>>> {
    let asked = asked_at_start(source, shapes);
    while let Some(answers) = ask_all(lines, &asked, &LEAVE)? {
        match Bench::begin(source, shapes, answers) {
            Ok(bench) => return Ok(Some(bench)),
            Err(said) => lines.say(&said)?,
        }
        if asked.is_empty() {
            break;
        }
    }
    lines.say("nothing is started")?;
    Ok(None)
}

/// The session from a start to its end.
pub fn run(lines: &mut Lines, bench: &mut Bench) -> Result<()> {
    show(lines, bench)?;
    lines.say("`help` says what can be typed")?;
    while let Some(line) = lines.ask("> ")? {
        match line.as_str() {
            "" => {}
            "quit" => break,
            "undo" => undo(lines, bench)?,
            "state" => lines.say(&words::state(bench))?,
            "events" => lines.say(&words::events(bench))?,
            "run" => lines.say(&run_so_far(bench))?,
            "help" => lines.say(HELP)?,
            _ => other(lines, bench, &line)?,
        }
    }
    if bench.has_unwritten() {
        lines.say("// the run, which isn't written")?;
        lines.say(&run_so_far(bench))?;
    }
    Ok(())
}

/// The values, and the events.
fn show(lines: &mut Lines, bench: &Bench) -> Result<()> {
    lines.say(&words::state(bench))?;
    lines.say(&words::events(bench))
}

/// The steps so far, as a log's text.
fn run_so_far(bench: &Bench) -> String {
    write_rows(bench.rows(), bench.shapes)
}

fn undo(lines: &mut Lines, bench: &mut Bench) -> Result<()> {
    let step = numbered(bench.steps());
    let Some(event) = bench.undo() else {
        return lines.say("there is no press to take back");
    };
    let name = bench.source.names.event(event);
    lines.say(&format!("{step} ({name}) is taken back"))?;
    show(lines, bench)
}

/// A line that is none of the words: a path for the log, or an event.
fn other(lines: &mut Lines, bench: &mut Bench, line: &str) -> Result<()> {
    if let Some(path) = line.strip_prefix("log ") {
        return keep(lines, bench, path.trim_start(), false);
    }
    if let Some(path) = line.strip_prefix("log! ") {
        return keep(lines, bench, path.trim_start(), true);
    }
    match bench.event(line).map(|shape| shape.event) {
        Some(event) => choose(lines, bench, event),
        None => lines.say(&format!("{}; there are: {WORDS}", unknown(bench, line))),
    }
}

fn keep(lines: &mut Lines, bench: &mut Bench, path: &str, over: bool) -> Result<()> {
    match bench.keep(path, over) {
        Ok(said) => lines.say(&said),
        Err(said) => lines.say(&format!("nothing is written: {said}")),
    }
}

/// Why a line names nothing that can be pressed.
fn unknown(bench: &Bench, line: &str) -> String {
    let of_refinement = bench.shapes.named(line).map(|shape| shape.event);
    let of_either = || {
        let mut names = bench.source.names.events.iter().zip(1..);
        let named = names.find(|(name, _)| *name == line);
        named.map(|(_, event)| event)
    };
    let event = line.parse().ok().or(of_refinement).or_else(of_either);
    match event {
        Some(event) => cannot_step(bench.source, event),
        None => format!("{} is no event and no word of the bench", quoted(line)),
    }
}

/// Asks what an event needs, shows what it would do, and presses it if that is wanted.
fn choose(lines: &mut Lines, bench: &mut Bench, event: i64) -> Result<()> {
    let shape = bench.shapes.of_event(event).expect("a chosen event");
    let asked = asked(&bench.source.table, shape);
    let Some(answers) = ask_all(lines, &asked, &GIVE_UP)? else {
        return lines.say(&format!("{} is given up", shape.name));
    };
    match bench.preview(Choice { event, answers }) {
        Ok(preview) => {
            lines.say(&words::changes(bench, &preview))?;
            confirm(lines, bench, &preview)
        }
        Err(no_step) => lines.say(&words::refused(bench, &no_step)),
    }
}

fn confirm(lines: &mut Lines, bench: &mut Bench, preview: &Preview) -> Result<()> {
    if lines.ask("press it (y)? ")?.as_deref() != Some("y") {
        return lines.say("not pressed");
    }
    match bench.press(preview) {
        Ok(()) => show(lines, bench),
        Err(said) => lines.say(&said),
    }
}
