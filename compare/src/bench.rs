//! Times the proved program and library against this program: the same tables, calls and output.

pub mod replay;

use crate::against::Services;
use crate::checks::accept;
use crate::formula::MOD;
use crate::generate::draft::Draft;
use crate::generate::plan::{deep, extreme, growing, Side};
use crate::generate::random::Random;
use crate::program::Program;
use crate::rows::{bytes_of, layout, ROW_BYTES};
use crate::sequents::{sequents, spell_out};
use crate::services::{check, print, spell_entry, write_sequent};
use std::hint::black_box;
use std::time::{Duration, Instant};

/// A table, and the longest goal of its sequents.
struct Subject {
    name: &'static str,
    table: Vec<u8>,
    count: usize,
    /// Sequent, entry and rows.
    longest: (usize, usize, usize),
}

/// The time of one call by either side.
struct Times {
    call: &'static str,
    proved: Duration,
    rust: Duration,
}

/// The runs of either side go on until they have taken so long together, and there are at least so many.
const LONG_ENOUGH: Duration = Duration::from_millis(400);
const ENOUGH: usize = 7;

/// Three sizes of one shape, from the smallest to the largest.
type Sizes = [Subject; 3];

/// A model, a table at every limit and the longest list, without shared variables and with them.
fn single() -> [Subject; 4] {
    let model = layout(include_str!("../../models/free_list.txt")).expect("a model");
    [
        subject("model free_list", bytes_of(&model)),
        subject("512 nodes, 32 events", rows_of(|random| extreme(0, random))),
        subject("longest list", rows_of(|random| extreme(1, random))),
        subject(
            "longest list, shared",
            rows_of(|random| extreme(11, random)),
        ),
    ]
}

/// A table, and a formula of mods, whose well-definedness is the longest, each growing to its limit.
fn growing_ones() -> [Sizes; 2] {
    let grown = |quarters| rows_of(|random| growing(quarters).draft(random));
    let deepened = |depth| rows_of(|random| deep(MOD, &[Side::Right], depth, random));
    [
        [
            subject("table, a quarter", grown(1)),
            subject("table, a half", grown(2)),
            subject("table, whole", grown(4)),
        ],
        [
            subject("formula, a quarter", deepened(63)),
            subject("formula, a half", deepened(127)),
            subject("formula, whole", deepened(255)),
        ],
    ]
}

/// The tables by name.
pub fn tables() -> Vec<(&'static str, Vec<u8>)> {
    let grown = growing_ones().into_iter().flatten();
    let all = single().into_iter().chain(grown);
    all.map(|subject| (subject.name, subject.table)).collect()
}

/// One of the tables, by its name or by its number from 1.
pub fn table(name: &str) -> Result<Vec<u8>, String> {
    let tables = tables();
    let numbered = |place: usize| (place + 1).to_string();
    let found = (0..tables.len()).find(|&place| tables[place].0 == name || numbered(place) == name);
    match found {
        Some(place) => Ok(tables[place].1.clone()),
        None => {
            let lines =
                (0..tables.len()).map(|place| format!("\n{} {}", place + 1, tables[place].0));
            Err("the timed tables:".to_string() + &lines.collect::<String>())
        }
    }
}

fn rows_of(draft: impl Fn(&mut Random) -> Draft) -> Vec<u8> {
    let mut random = Random::new(1);
    let draft = draft(&mut random);
    bytes_of(&draft.rows(&mut random))
}

fn subject(name: &'static str, bytes: Vec<u8>) -> Subject {
    let table = accept(&bytes).expect("the tables to time are accepted");
    let list = sequents(&table);
    let goals = list.iter().enumerate().map(|(place, one)| {
        let rows = spell_out(&table, one.goal).len();
        (place + 1, one.hypotheses.len() + 1, rows)
    });
    let longest = goals.max_by_key(|goal| goal.2).expect("some sequent");
    Subject {
        name,
        count: list.len(),
        longest,
        table: bytes,
    }
}

/// Times all tables: a line for each call, and after three sizes how the times grow.
fn report(times: impl Fn(&Subject) -> Result<Vec<Times>, String>) -> Result<String, String> {
    let mut text = HEAD.to_string();
    for subject in single() {
        text += &lines(&subject, &times(&subject)?);
    }
    for sizes in growing_ones() {
        let mut all = Vec::new();
        for subject in &sizes {
            all.push(times(subject)?);
            text += &lines(subject, &all[all.len() - 1]);
        }
        text += &growth(&all);
    }
    Ok(text)
}

const HEAD: &str =
    "table                  rows sequents  longest entry  call              proved us      Rust us  ratio\n";

fn lines(subject: &Subject, times: &[Times]) -> String {
    let micros = |time: Duration| time.as_secs_f64() * 1e6;
    let line = |one: &Times| {
        format!(
            "{:<22} {:>4} {:>8} {:>14}  {:<13} {:>13.1} {:>12.1} {:>6.2}\n",
            subject.name,
            subject.table.len() / ROW_BYTES,
            subject.count,
            subject.longest.2,
            one.call,
            micros(one.proved),
            micros(one.rust),
            micros(one.proved) / micros(one.rust)
        )
    };
    times.iter().map(line).collect()
}

/// The times of each call at three sizes, in terms of the first, and of the last in terms of the one before.
fn growth(sizes: &[Vec<Times>]) -> String {
    let mut text = String::new();
    for (place, first) in sizes[0].iter().enumerate() {
        let times = |side: fn(&Times) -> Duration| -> Vec<f64> {
            let times = sizes.iter().map(|one| side(&one[place]).as_secs_f64());
            times.collect()
        };
        let (proved, rust) = (times(|one| one.proved), times(|one| one.rust));
        text += &format!(
            "growth of {}: proved{}, Rust{}\n",
            first.call,
            in_terms_of_first(&proved),
            in_terms_of_first(&rust)
        );
        text += &format!(
            "growth of {} from the half to the whole: proved {:.1}, Rust {:.1}\n",
            first.call,
            proved[2] / proved[1],
            rust[2] / rust[1]
        );
    }
    text
}

fn in_terms_of_first(times: &[f64]) -> String {
    let terms = times.iter().map(|one| format!(" {:.1}", one / times[0]));
    terms.collect()
}

/// The times of one side's runs.
#[derive(Default)]
struct Runs {
    times: Vec<Duration>,
    total: Duration,
}

impl Runs {
    fn add<T>(&mut self, run: &mut impl FnMut() -> T) {
        let start = Instant::now();
        black_box(run());
        let time = start.elapsed();
        self.times.push(time);
        self.total += time;
    }

    fn are_enough(&self) -> bool {
        self.times.len() >= ENOUGH && self.total >= LONG_ENOUGH
    }

    fn median(mut self) -> Duration {
        self.times.sort();
        self.times[self.times.len() / 2]
    }
}

/// Times both sides in turn, one run of each, until both have enough, so that what else the machine does meets both alike.
fn time<T, U>(
    call: &'static str,
    mut proved: impl FnMut() -> T,
    mut rust: impl FnMut() -> U,
) -> Times {
    let (mut proved_runs, mut rust_runs) = (Runs::default(), Runs::default());
    while !(proved_runs.are_enough() && rust_runs.are_enough()) {
        proved_runs.add(&mut proved);
        rust_runs.add(&mut rust);
    }
    Times {
        call,
        proved: proved_runs.median(),
        rust: rust_runs.median(),
    }
}

/// Times check, the last sequent and the longest goal, in this process.
pub fn library(proved: &dyn Services) -> Result<String, String> {
    report(|subject| {
        Ok(vec![
            check_times(proved, subject),
            write_times(proved, subject),
            spell_times(proved, subject),
        ])
    })
}

fn check_times(proved: &dyn Services, subject: &Subject) -> Times {
    let table = &subject.table;
    assert_eq!(proved.check(table).value, subject.count as u64);
    time(
        "check",
        || proved.check(black_box(table)),
        || check(black_box(table)),
    )
}

fn write_times(proved: &dyn Services, subject: &Subject) -> Times {
    let (table, k) = (&subject.table, subject.count);
    let mut out = vec![0; 179 * ROW_BYTES];
    let mut same = out.clone();
    let times = time(
        "last sequent",
        || proved.write_sequent(table, k as u64, &mut out),
        || write_sequent(table, k, &mut same),
    );
    assert!(out == same, "{}: the sequents differ", subject.name);
    times
}

fn spell_times(proved: &dyn Services, subject: &Subject) -> Times {
    let (table, (k, j, rows)) = (&subject.table, subject.longest);
    let mut out = vec![0; rows * ROW_BYTES];
    let mut same = out.clone();
    let times = time(
        "longest entry",
        || proved.spell_entry(table, k as u64, j as u64, &mut out),
        || spell_entry(table, k, j, &mut same),
    );
    assert!(out == same, "{}: the entries differ", subject.name);
    times
}

/// Times the whole run of a program that reads a table and prints, and of this program.
pub fn program(proved: &Program, rust: &Program) -> Result<String, String> {
    report(|subject| {
        let wanted = print(&subject.table);
        for program in [proved, rust] {
            program.read(&subject.table)?;
            if program.output()? != wanted {
                return Err(format!("{}: the output differs", subject.name));
            }
        }
        Ok(vec![time("print", || proved.output(), || rust.output())])
    })
}
