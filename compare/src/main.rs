//! The commands of the program `compare`; READINGS.md has the readings of the paper behind it.

use compare::against::Services;
use compare::batches::{self, Batched};
use compare::bench;
use compare::by_sequent::hold;
use compare::campaign::{self, Report};
use compare::checks::{accept, Refusal};
use compare::generate;
use compare::numbers::Taken;
use compare::operators::family;
use compare::operators::wanted::{missing, wanted};
use compare::plain::is_left_out;
use compare::presses::Presses;
use compare::program::replay::Replayer;
use compare::program::{self, Program};
use compare::replay::replayed;
use compare::replays::Replays;
use compare::rows::{bytes_of, layout, Row};
use compare::runs;
use compare::runs::simulate::simulate;
use compare::services::{print, refusal_row, Answers};
use compare::stack::{self, report};
use compare::states;
use compare::statistics::{self, Statistics};
use compare::table::Table;
use compare::validity::{search, Under};
use std::fs::{read, read_to_string};
use std::io::{stdin, stdout, Read, Write};
use std::path::Path;
use std::process::ExitCode;

const USAGE: &str = "use: compare print | sequent K | entry K J | layout | table SEED
     | replay TABLE LOG | simulate TABLE STEPS SEED
     | statistics SEEDS [FIRST] | replay-statistics BATCHES [FIRST] | left-out SEEDS [FIRST]
     | press-statistics BATCHES [FIRST]
     | against-library TABLES [FIRST] | operators | against-library-replay LOGS [FIRST]
     | against-library-press PRESSES [FIRST]
     | against-program PROGRAM TABLES [FIRST] | against-program-replay PROGRAM LOGS [FIRST]
     | by-sequent PROGRAM [FILE..]
     | bench [PROGRAM] | bench-table NAME | bench-replay [STEPS] | stack | stack-replay | stack-press";

fn main() -> ExitCode {
    let words: Vec<String> = std::env::args().skip(1).collect();
    let words: Vec<&str> = words.iter().map(String::as_str).collect();
    match answer(&words) {
        Ok(bytes) => match stdout().write_all(&bytes) {
            Ok(()) => ExitCode::SUCCESS,
            Err(_) => ExitCode::FAILURE,
        },
        Err(message) => {
            eprintln!("{message}");
            ExitCode::FAILURE
        }
    }
}

fn answer(words: &[&str]) -> Result<Vec<u8>, String> {
    match words {
        ["print"] => Ok(print(&read_table()?)),
        ["sequent", k] => answered(Answers::of(&read_table()?).sequent(number(k)? as usize)),
        ["entry", k, j] => {
            let (k, j) = (number(k)? as usize, number(j)? as usize);
            answered(Answers::of(&read_table()?).entry(k, j))
        }
        ["layout"] => {
            let mut text = String::new();
            stdin()
                .read_to_string(&mut text)
                .map_err(|error| error.to_string())?;
            Ok(bytes_of(&layout(&text)?))
        }
        ["table", seed] => Ok(generate::table(number(seed)?)),
        ["bench-table", name] => bench::table(name),
        ["statistics", seeds] => Ok(Statistics::of(0, number(seeds)?).report().into_bytes()),
        ["statistics", seeds, first] => {
            let statistics = Statistics::of(number(first)?, number(seeds)?);
            Ok(statistics.report().into_bytes())
        }
        ["left-out", seeds] => left_out(number(seeds)?, 0),
        ["left-out", seeds, first] => left_out(number(seeds)?, number(first)?),
        _ => compared(words),
    }
}

/// A log of a real run of the table in this file.
fn simulated(file: &str, steps: u64, seed: u64) -> Result<Vec<u8>, String> {
    let table = accept(&bytes_in(file)?);
    let refused = |one: Refusal| format!("{file}: refused by {}, row {}", one.number, one.row);
    simulate(&table.map_err(refused)?, steps, seed)
}

/// Searches the sequents that request 4 leaves out for values that refute them.
fn left_out(count: u64, first: u64) -> Result<Vec<u8>, String> {
    let mut text = String::new();
    for under in [Under::All, Under::Needed] {
        let searched = search(first, count, under, is_left_out);
        text += &format!("hypotheses: {under:?}; {}", searched.report());
        if let Some(refuted) = searched.refuted {
            return Err(text + "REFUTED " + &refuted);
        }
    }
    Ok((text + "none is refuted\n").into_bytes())
}

/// The commands that hold another implementation against this one.
fn compared(words: &[&str]) -> Result<Vec<u8>, String> {
    match words {
        ["against-library", count] => against_library(number(count)?, 0),
        ["against-library", count, first] => against_library(number(count)?, number(first)?),
        ["operators"] => operators(),
        ["against-program", program, count] => against_program(program, number(count)?, 0),
        ["against-program", program, count, first] => {
            against_program(program, number(count)?, number(first)?)
        }
        ["by-sequent", program, files @ ..] => by_sequent(program, files),
        ["bench"] => {
            let calls = bench::library(linked()?)?;
            let replays = bench::replay::report(library_replay(), bench::replay::STEPS);
            let replays = replays.map_err(|text| format!("{calls}{text}"))?;
            Ok((calls + &replays).into_bytes())
        }
        ["stack"] => Ok(report::report(linked()?)?.into_bytes()),
        ["bench", program] => {
            let this = std::env::current_exe().map_err(|error| error.to_string())?;
            let (proved, rust) = (program_of(program), Program::new(&this, &["print"]));
            Ok(bench::program(&proved, &rust)?.into_bytes())
        }
        _ => logs(words),
    }
}

/// The commands that replay logs. Without the library, `bench-replay` times this program alone.
fn logs(words: &[&str]) -> Result<Vec<u8>, String> {
    match words {
        ["replay", table, log] => Ok(replayed(&bytes_in(table)?, &bytes_in(log)?)),
        ["simulate", table, steps, seed] => simulated(table, number(steps)?, number(seed)?),
        ["replay-statistics", batches, first @ ..] => {
            let counted = statistics::replays::Replays::of(or(0, first)?, number(batches)?);
            Ok(counted.report().into_bytes())
        }
        ["against-library-replay", logs, first @ ..] => {
            against_library_replay(number(logs)?, or(0, first)?)
        }
        ["against-program-replay", program, logs, first @ ..] => {
            against_program_replay(program, number(logs)?, or(0, first)?)
        }
        ["stack-replay"] => {
            let replays = library_replay().ok_or(UNLINKED)?;
            Ok(stack::replay::report(replays)?.into_bytes())
        }
        ["bench-replay", steps @ ..] => {
            let steps = or(bench::replay::STEPS, steps)?;
            Ok(bench::replay::report(library_replay(), steps)?.into_bytes())
        }
        _ => pressed(words),
    }
}

/// The commands that press events.
fn pressed(words: &[&str]) -> Result<Vec<u8>, String> {
    match words {
        ["press-statistics", batches, first @ ..] => {
            let counted = statistics::presses::Presses::of(or(0, first)?, number(batches)?);
            Ok(counted.report().into_bytes())
        }
        ["against-library-press", presses, first @ ..] => {
            against_library_press(number(presses)?, or(0, first)?)
        }
        ["stack-press"] => {
            let presses = library_press().ok_or(UNLINKED)?;
            Ok(stack::press::report(presses)?.into_bytes())
        }
        _ => Err(USAGE.to_string()),
    }
}

/// The number that is given, or else this one.
fn or(otherwise: u64, given: &[&str]) -> Result<u64, String> {
    match given {
        [] => Ok(otherwise),
        [one] => number(one),
        _ => Err(USAGE.to_string()),
    }
}

/// The proved library, if this was built with it.
fn library() -> Option<&'static dyn Services> {
    #[cfg(library)]
    return Some(&compare::library::Library);
    #[cfg(not(library))]
    return None;
}

/// Its replay, if this was built with it.
fn library_replay() -> Option<&'static dyn Replays> {
    #[cfg(library)]
    return Some(&compare::library::Library);
    #[cfg(not(library))]
    return None;
}

/// Its press and preview, if this was built with it.
fn library_press() -> Option<&'static dyn Presses> {
    #[cfg(library)]
    return Some(&compare::library::Library);
    #[cfg(not(library))]
    return None;
}

const UNLINKED: &str =
    "this was built without the library: set SIFTHORMA_LIBRARY to the path of libsifthorma.a";

/// The proved library, for commands that need it.
fn linked() -> Result<&'static dyn Services, String> {
    library().ok_or(UNLINKED.to_string())
}

/// Compares the proved library with this program on the tables of so many seeds.
fn against_library(count: u64, first: u64) -> Result<Vec<u8>, String> {
    let compared = campaign::compare(linked()?, first, count, threads(), true);
    reported([compared])
}

/// Compares the proved library with this program on the tables of operators, which must show all that is asked of them.
fn operators() -> Result<Vec<u8>, String> {
    let (services, tables) = (linked()?, family());
    let missing = missing(&tables);
    if !missing.is_empty() {
        let lines = missing
            .iter()
            .map(|case| format!("no table shows {case:?}\n"));
        return Err(lines.collect());
    }
    let same = reported([campaign::compare_list(services, &tables, threads())])?;
    let asked = wanted().len();
    let shown = format!("{asked} cases of operators, each shown by some table\n");
    Ok([shown.into_bytes(), same].concat())
}

/// Compares the proved library's replay with this program's, on every operator by itself and on so many generated logs.
fn against_library_replay(logs: u64, first: u64) -> Result<Vec<u8>, String> {
    let replays = library_replay().ok_or(UNLINKED)?;
    against_library_batches(replays, &runs::family::whole_family(), logs, first)
}

/// Compares the proved library's press and preview with this program's, on every operator by itself and on so many generated
/// presses.
fn against_library_press(count: u64, first: u64) -> Result<Vec<u8>, String> {
    let presses = library_press().ok_or(UNLINKED)?;
    against_library_batches(presses, &states::family::whole_family(), count, first)
}

/// Compares calls of one sort on a list of batches and on so many generated calls.
fn against_library_batches<C>(
    calls: &C,
    list: &[C::Batch],
    count: u64,
    first: u64,
) -> Result<Vec<u8>, String>
where
    C: Batched<Summary: Report, Found: Report> + ?Sized,
{
    reported([
        batches::compare_list(calls, list, threads()),
        batches::compare(calls, first, count, threads(), true),
    ])
}

fn threads() -> usize {
    std::thread::available_parallelism().map_or(1, |threads| threads.get())
}

/// The counts of each comparison, and the first difference as an error.
fn reported<S: Report, F: Report>(
    all: impl IntoIterator<Item = Taken<S, F>>,
) -> Result<Vec<u8>, String> {
    let mut text = String::new();
    for compared in all {
        let (summary, found) = compared?;
        text += &summary.report();
        if let Some(found) = found {
            return Err(text + &found.report());
        }
    }
    Ok((text + "no difference\n").into_bytes())
}

/// Compares a program that prints a table's sequents with this one on the tables of so many seeds, and with the library's
/// sequents if it is linked.
fn against_program(program: &str, count: u64, first: u64) -> Result<Vec<u8>, String> {
    let same = program::compare(&program_of(program), library(), first, count)?;
    Ok(same.into_bytes())
}

/// Compares a program that replays a log of a table, each in a file, with this one on so many generated logs, then on the
/// long ones.
fn against_program_replay(program: &str, logs: u64, first: u64) -> Result<Vec<u8>, String> {
    let program = Replayer::new(Path::new(program), &[]);
    let same = program::replay::compare(&program, first, logs)?;
    let counts = program::long::compare(|table, log| program.output(table, log))?;
    let long = counts.report() + "no difference\n";
    Ok((same + &long).into_bytes())
}

/// Holds what a program prints for the models in these files and for the timed tables against the library's sequents: a line
/// for each table as it is done.
fn by_sequent(program: &str, files: &[&str]) -> Result<Vec<u8>, String> {
    let (program, services) = (program_of(program), linked()?);
    let mut tables = Vec::new();
    for &file in files {
        let trouble = |error: String| format!("{file}: {error}");
        let text = read_to_string(file).map_err(|error| trouble(error.to_string()))?;
        tables.push((file, bytes_of(&layout(&text).map_err(trouble)?)));
    }
    tables.extend(bench::tables());
    let mut differences = 0;
    for (name, table) in &tables {
        program.read(table)?;
        let held = hold(services, table, &program.output()?);
        println!("{name}: {}", held.report());
        differences += usize::from(held.difference.is_some());
    }
    match differences {
        0 => Ok("no difference\n".into()),
        _ => Err(format!("{differences} of {} tables differ", tables.len())),
    }
}

/// A program named by its path alone.
fn program_of(path: &str) -> Program {
    Program::new(Path::new(path), &[])
}

/// The rows, or one row 89.
fn answered(rows: Result<Vec<Row>, Refusal>) -> Result<Vec<u8>, String> {
    let rows = rows.unwrap_or_else(|refusal| vec![refusal_row(refusal)]);
    Ok(bytes_of(&rows))
}

/// All that the file holds.
fn bytes_in(file: &str) -> Result<Vec<u8>, String> {
    read(file).map_err(|error| format!("{file}: {error}"))
}

fn number(text: &str) -> Result<u64, String> {
    text.parse().map_err(|_| USAGE.to_string())
}

/// Reads standard input, one byte past the most that a table may have.
fn read_table() -> Result<Vec<u8>, String> {
    let mut bytes = Vec::new();
    stdin()
        .take(Table::MOST_BYTES as u64 + 1)
        .read_to_end(&mut bytes)
        .map_err(|error| error.to_string())?;
    Ok(bytes)
}
