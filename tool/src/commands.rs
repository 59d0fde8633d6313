//! The commands of the program.

use crate::bench::lines::Lines;
use crate::bench::{session, Bench};
use crate::discharge::{run, Plan};
use crate::library::{self, Refusal};
use crate::log::shape::Shapes;
use crate::log::{self, Log};
use crate::notation::write::write;
use crate::provers::{Prover, HOW_TO_GET};
use crate::refusal;
use crate::refute::{search, shown, Found};
use crate::replay::words;
use crate::report::{is_discharged, report};
use crate::rows::{read_rows, write_row, Row};
use crate::sequents::{Answers, Sequent, Spelled, KINDS, RODIN_KINDS};
use crate::show::show;
use crate::smt::{Smt, PREAMBLE};
use crate::source::Source;
use std::io::{stdin, stdout, ErrorKind, IsTerminal};
use std::ops::RangeInclusive;
use std::time::Duration;

pub const USAGE: &str = "\
use: sifthorma COMMAND FILE ..
  check FILE                 whether the model is accepted, and how many sequents it has; or why it is refused
  table FILE                 the table, accepted or not: rows of 38 bytes
  print FILE                 all sequents as rows, as the program `obligations` prints them
  text FILE                  the model in the notation; names are invented for a table
  list FILE [--event NAME].. [--kind KIND]..
                             the sequents by Rodin's labels
  show FILE K                sequent K, a number or a label, as mathematics
  smt FILE [K]               SMT-LIB 2.6: one check-sat a sequent, unsat where it is valid
  discharge FILE [--prover z3|cvc5|COMMAND].. [--timeout SECONDS] [--jobs N]
                             runs provers on every sequent
  refute FILE [LOW HIGH]     looks for counterexamples with integers from LOW to HIGH (-2 to 4)
  replay FILE LOG            whether a recorded run is a run of the refinement, and how many steps it has; or which step isn't, and why
  log FILE LOG               the log as a text: a line for each step, with what has changed
  rows FILE LOG              the log as rows of 38 bytes, judged or not
  press FILE [LOG]           a bench: events are chosen, previewed and pressed, from the initialisation or the end of LOG
FILE is a text in the notation (.eb), a text of rows (.txt) or a table; - is standard input. LOG is a text
or rows. docs/GUIDE.md has the notation, and the form of logs.
Exit status: 0; 1 if the model or the log is refused, a sequent isn't discharged or a bench isn't started; 2 if something can't be
read, written or run.
";

/// How a command ends that doesn't simply give its output.
#[derive(Debug)]
pub struct Ending {
    /// What still goes to standard output.
    pub output: Vec<u8>,
    /// What goes to standard error.
    pub message: String,
    pub status: u8,
}

type Done<T> = Result<T, Ending>;

/// The output of the command in these words.
pub fn answer(words: &[&str]) -> Done<Vec<u8>> {
    match words {
        ["help" | "--help" | "-h"] => Ok(USAGE.into()),
        ["check", file] => check(&read(file)?),
        ["table", file] => Ok(read(file)?.bytes),
        ["print", file] => print(&read(file)?),
        ["text", file] => text(&read(file)?),
        ["list", file, options @ ..] => list(&read(file)?, options),
        ["show", file, k] => show_chosen(&read(file)?, k),
        ["smt", file] => smt(&read(file)?, None),
        ["smt", file, k] => smt(&read(file)?, Some(k)),
        ["discharge", file, options @ ..] => discharge(&read(file)?, options),
        ["refute", file] => refute(&read(file)?, -2..=4),
        ["refute", file, low, high] => refute(&read(file)?, range(low, high)?),
        ["replay" | "log" | "rows", "-", "-"] => Err(cannot(
            "standard input is the model or the log, not both".to_string(),
        )),
        ["replay", file, log] => replay(&read(file)?, log),
        ["log", file, log] => log_text(&read(file)?, log),
        ["rows", file, log] => Ok(recorded(&read(file)?, log)?.1.bytes),
        ["press", "-", ..] | ["press", _, "-"] => Err(cannot(
            "standard input is what is typed at the bench; the model and the log are files"
                .to_string(),
        )),
        ["press", file] => press(&read(file)?, None),
        ["press", file, log] => press(&read(file)?, Some(log)),
        [] => Err(cannot(USAGE.to_string())),
        [first, ..] => Err(cannot(format!("{}\n{USAGE}", unknown(first)))),
    }
}

/// What is wrong with words that are no command.
fn unknown(first: &str) -> String {
    match USAGE.contains(&format!("\n  {first} ")) {
        true => format!("`{first}` takes other words than these"),
        false => format!("`{first}` is no command"),
    }
}

/// Something can't be read, written or run.
fn cannot(message: String) -> Ending {
    Ending {
        output: vec![],
        message,
        status: 2,
    }
}

/// What was written didn't get through. A reader that has seen enough, as `head`, knows that it has gone.
pub fn unwritten(error: std::io::Error) -> Ending {
    cannot(match error.kind() {
        ErrorKind::BrokenPipe => String::new(),
        _ => format!("cannot write: {error}"),
    })
}

/// The output stands, but not all is well.
fn not_all(text: String) -> Ending {
    Ending {
        output: text.into(),
        message: String::new(),
        status: 1,
    }
}

fn refused(source: &Source, refusal: Refusal) -> Ending {
    Ending {
        output: vec![],
        message: refusal::report(source, refusal),
        status: 1,
    }
}

fn read(file: &str) -> Done<Source> {
    Source::read(file).map_err(cannot)
}

/// The count of an accepted model's sequents.
fn count(source: &Source) -> Done<u64> {
    library::check(&source.bytes).map_err(|refusal| refused(source, refusal))
}

fn check(source: &Source) -> Done<Vec<u8>> {
    match library::check(&source.bytes) {
        Ok(1) => Ok(format!("{}: accepted, 1 sequent\n", source.file).into()),
        Ok(count) => Ok(format!("{}: accepted, {count} sequents\n", source.file).into()),
        Err(refusal) => Err(not_all(refusal::report(source, refusal))),
    }
}

/// The bytes that `obligations` prints: all sequents, or a row 89.
fn print(source: &Source) -> Done<Vec<u8>> {
    let count = library::check(&source.bytes).map_err(|refusal| Ending {
        output: write_row(Row {
            tag: 89,
            a: refusal.number as i64,
            b: refusal.row as i64,
            c: 0,
        }),
        ..refused(source, refusal)
    })?;
    let mut bytes = Vec::new();
    for k in 1..=count {
        let sequent = library::sequent(&source.bytes, k);
        bytes.extend(sequent.map_err(|refusal| refused(source, refusal))?);
    }
    let rows = read_rows(&bytes).unwrap_or_default();
    let printed = rows.iter().filter(|row| row.tag == 80).count() as u64;
    match printed == count {
        true => Ok(bytes),
        false => Err(cannot(miscounted(source, printed, count))),
    }
}

fn miscounted(source: &Source, found: u64, count: u64) -> String {
    format!(
        "{}: {found} sequents, where check counts {count}",
        source.file
    )
}

fn text(source: &Source) -> Done<Vec<u8>> {
    count(source)?;
    Ok(write(&source.table, &source.names).into())
}

/// All sequents of an accepted model.
fn sequents(source: &Source) -> Done<Vec<Sequent>> {
    let sequents = Answers::new(&source.bytes).all(count(source)?);
    sequents.map_err(|refusal| refused(source, refusal))
}

/// The sequents with their entries spelled out.
fn spelled(source: &Source, sequents: Vec<Sequent>) -> Done<Vec<Spelled>> {
    let mut answers = Answers::new(&source.bytes);
    let spelled = sequents.into_iter().map(|sequent| answers.spell(sequent));
    let spelled: Result<Vec<Spelled>, Refusal> = spelled.collect();
    spelled.map_err(|refusal| refused(source, refusal))
}

/// Options in pairs: a word that begins with --, and its value.
fn pairs<'a>(options: &[&'a str]) -> Done<Vec<(&'a str, &'a str)>> {
    let pairs = options.chunks(2).map(|pair| match *pair {
        [option, value] if option.starts_with("--") => Ok((option, value)),
        [option] if option.starts_with("--") => {
            Err(cannot(format!("expected a word after `{option}`\n{USAGE}")))
        }
        _ => Err(cannot(format!("`{}` is no option\n{USAGE}", pair[0]))),
    });
    pairs.collect()
}

fn list(source: &Source, options: &[&str]) -> Done<Vec<u8>> {
    let (table, names) = (&source.table, &source.names);
    let (mut events, mut kinds) = (Vec::new(), Vec::new());
    for (option, wanted) in pairs(options)? {
        match option {
            "--event" if !names.events.iter().any(|name| name == wanted) => {
                let file = &source.file;
                return Err(cannot(format!("{file}: no event is named `{wanted}`")));
            }
            "--event" => events.push(wanted.to_string()),
            "--kind" if !KINDS.contains(&wanted) && !RODIN_KINDS.contains(&wanted) => {
                let kinds = [&KINDS[..], &RODIN_KINDS].concat().join(", ");
                let message = format!("no kind is named `{wanted}`; the kinds are {kinds}");
                return Err(cannot(message));
            }
            "--kind" => kinds.push(wanted),
            _ => return Err(cannot(format!("`{option}` is no option of list\n{USAGE}"))),
        }
    }
    let mut sequents = sequents(source)?;
    sequents.retain(|one| {
        events.is_empty() || one.event != 0 && events.contains(&names.event(one.event))
    });
    let is_wanted = |kind: &str| kinds.is_empty() || kinds.contains(&kind);
    sequents.retain(|one| is_wanted(one.kind_word()) || is_wanted(one.rodin_kind(table)));
    let lines = sequents.iter().map(|one| one.line(table, names) + "\n");
    Ok(lines.collect::<String>().into())
}

/// The sequents with this number or label.
fn chosen(source: &Source, k: &str) -> Done<Vec<Spelled>> {
    let mut sequents = sequents(source)?;
    if k.bytes().all(|byte| byte.is_ascii_digit()) {
        // a number too long to be one is none of the list's
        let k = k.parse().unwrap_or(u64::MAX);
        let sequent = Answers::new(&source.bytes).sequent(k);
        let sequent = sequent.map_err(|refusal| refused(source, refusal))?;
        return spelled(source, vec![sequent]);
    }
    sequents.retain(|one| one.label(&source.table, &source.names) == k);
    match sequents.is_empty() {
        true => Err(cannot(format!(
            "{}: no sequent has the label `{k}`; `sifthorma list` shows them",
            source.file
        ))),
        false => spelled(source, sequents),
    }
}

fn show_chosen(source: &Source, k: &str) -> Done<Vec<u8>> {
    let count = count(source)?;
    let chosen = chosen(source, k)?;
    let shown = chosen
        .iter()
        .map(|one| show(one, count, &source.table, &source.names));
    Ok(shown.collect::<String>().into())
}

/// One script for each sequent, with a reset between two.
fn smt(source: &Source, k: Option<&str>) -> Done<Vec<u8>> {
    let smt = Smt {
        table: &source.table,
        names: &source.names,
    };
    let chosen = match k {
        Some(k) => chosen(source, k)?,
        None => spelled(source, sequents(source)?)?,
    };
    // begun anew for each sequent: between push and pop provers answer less
    let scripts = chosen
        .iter()
        .map(|one| PREAMBLE.to_string() + &smt.question(one));
    let scripts: Vec<String> = scripts.collect();
    Ok(scripts.join("(reset)\n").into())
}

fn discharge(source: &Source, options: &[&str]) -> Done<Vec<u8>> {
    let (table, names) = (&source.table, &source.names);
    let spelled = spelled(source, sequents(source)?)?;
    let outcomes = run(&plan(options)?, &spelled, table, names).map_err(cannot)?;
    let (found, count) = (outcomes.len() as u64, count(source)?);
    if found != count {
        return Err(cannot(miscounted(source, found, count)));
    }
    let text = report(&outcomes, &spelled, table, names);
    match outcomes.iter().all(is_discharged) {
        true => Ok(text.into()),
        false => Err(not_all(text)),
    }
}

/// How provers are run: unless said otherwise those that are installed, 10 seconds each, on all processors.
fn plan(options: &[&str]) -> Done<Plan> {
    let mut plan = Plan {
        provers: vec![],
        limit: Duration::from_secs(10),
        jobs: std::thread::available_parallelism().map_or(1, |jobs| jobs.get()),
    };
    for (option, value) in pairs(options)? {
        match option {
            "--prover" => plan.provers.push(Prover::named(value)),
            "--timeout" => plan.limit = Duration::from_secs(positive(value)?),
            "--jobs" => plan.jobs = positive(value)? as usize,
            _ => {
                return Err(cannot(format!(
                    "`{option}` is no option of discharge\n{USAGE}"
                )))
            }
        }
    }
    for prover in &plan.provers {
        prover.try_start().map_err(|error| {
            let name = &prover.name;
            cannot(format!(
                "cannot run the prover `{name}`: {error}\n{HOW_TO_GET}"
            ))
        })?;
    }
    if plan.provers.is_empty() {
        plan.provers = Prover::installed();
    }
    match plan.provers.is_empty() {
        true => Err(cannot(format!("no prover is found\n{HOW_TO_GET}"))),
        false => Ok(plan),
    }
}

fn integer(word: &str) -> Done<i128> {
    let number = word.parse();
    number.map_err(|_| cannot(format!("expected a number, found `{word}`\n{USAGE}")))
}

/// The integers that are tried.
fn range(low: &str, high: &str) -> Done<RangeInclusive<i128>> {
    let (low, high) = (integer(low)?, integer(high)?);
    match low <= high {
        true => Ok(low..=high),
        false => Err(cannot(format!("no number lies between {low} and {high}"))),
    }
}

/// A number from 1 to a million.
fn positive(word: &str) -> Done<u64> {
    match integer(word)? {
        number @ 1..=1_000_000 => Ok(number as u64),
        _ => Err(cannot(format!(
            "expected a number from 1 to 1000000, found `{word}`"
        ))),
    }
}

fn refute(source: &Source, integers: RangeInclusive<i128>) -> Done<Vec<u8>> {
    let (table, names) = (&source.table, &source.names);
    let spelled = spelled(source, sequents(source)?)?;
    let mut text = String::new();
    let (mut refuted, mut not_searched) = (0, 0);
    for one in &spelled {
        match search(one, table, integers.clone()) {
            Found::Nothing => {}
            Found::NotSearched => not_searched += 1,
            Found::Counterexample(values) => {
                refuted += 1;
                let values = shown(&values, table, names);
                text += &format!("{}: refuted\n{values}", one.sequent.line(table, names));
            }
        }
    }
    text += &format!("{refuted} of {} sequents refuted", spelled.len());
    if not_searched > 0 {
        text += &format!(", {not_searched} not searched to the end");
    }
    text += "\n";
    match refuted {
        0 => Ok(text.into()),
        _ => Err(not_all(text)),
    }
}

/// A log for an accepted model.
fn recorded(source: &Source, log: &str) -> Done<(Shapes, Log)> {
    count(source)?;
    let shapes = Shapes::of(&source.table, &source.names);
    let log = Log::read(log, &shapes).map_err(cannot)?;
    Ok((shapes, log))
}

/// The library's verdict on a log.
fn replay(source: &Source, log: &str) -> Done<Vec<u8>> {
    let (shapes, log) = recorded(source, log)?;
    let file = &log.file;
    match library::replay(&source.bytes, &log.bytes) {
        Ok(steps) => Ok(format!("{file}: accepted: {}\n", log::counted(steps)).into()),
        Err(refusal) => Err(not_all(words::report(source, &shapes, &log, refusal))),
    }
}

fn log_text(source: &Source, log: &str) -> Done<Vec<u8>> {
    let (shapes, log) = recorded(source, log)?;
    let text = log::write::write(&log.bytes, &shapes);
    let text = text.map_err(|row| {
        let place = log.place(row);
        let message = format!("{place}: row {row} isn't in the row form, so the log has no text");
        cannot(message)
    })?;
    Ok(text.into())
}

/// A session at the bench, on standard input and output.
fn press(source: &Source, log: Option<&str>) -> Done<Vec<u8>> {
    count(source)?;
    let shapes = Shapes::of(&source.table, &source.names);
    let log = log.map(|log| Log::read(log, &shapes).map_err(cannot));
    let log = log.transpose()?;
    // a terminal shows what is typed
    let echo = !stdin().is_terminal();
    let (mut input, mut output) = (stdin().lock(), stdout().lock());
    let mut lines = Lines::new(&mut input, &mut output, echo);
    let bench = match &log {
        Some(log) => {
            let resumed = Bench::resume(source, &shapes, log);
            let report = |refusal| not_all(words::report(source, &shapes, log, refusal));
            Some(resumed.map_err(report)?)
        }
        None => session::start(&mut lines, source, &shapes).map_err(unwritten)?,
    };
    let Some(mut bench) = bench else {
        return Err(not_all(String::new()));
    };
    session::run(&mut lines, &mut bench).map_err(unwritten)?;
    Ok(vec![])
}
