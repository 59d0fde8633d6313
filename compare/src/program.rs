//! Runs a program that reads a table from standard input and prints, and compares what it prints.

pub mod long;
pub mod replay;

use crate::against::Services;
use crate::by_sequent::{hold_chosen, Held};
use crate::campaign::shown_table;
use crate::generate;
use crate::generate::random::Random;
use crate::rows::ROW_BYTES;
use crate::services::{check, print};
use crate::shrink::shrink;
use std::fs::{remove_file, write, File};
use std::path::{Path, PathBuf};
use std::process::Command;
use std::sync::atomic::{AtomicUsize, Ordering};
use std::time::Duration;

/// Time for making a table with a difference smaller.
const SHRINKING: Duration = Duration::from_secs(60);

/// The name of a temporary file that nothing else uses.
fn own_file(word: &str) -> PathBuf {
    static MADE: AtomicUsize = AtomicUsize::new(0);
    let number = MADE.fetch_add(1, Ordering::Relaxed);
    std::env::temp_dir().join(format!("compare-{}-{number}-{word}", std::process::id()))
}

/// A program with its words, and the file that it reads.
pub struct Program {
    path: PathBuf,
    words: Vec<String>,
    input: PathBuf,
}

impl Program {
    pub fn new(path: &Path, words: &[&str]) -> Program {
        Program {
            path: path.to_path_buf(),
            words: words.iter().map(|word| word.to_string()).collect(),
            input: own_file("table"),
        }
    }

    /// Sets what the program reads from now on.
    pub fn read(&self, table: &[u8]) -> Result<(), String> {
        write(&self.input, table).map_err(|error| self.trouble(error))
    }

    /// What the program prints.
    pub fn output(&self) -> Result<Vec<u8>, String> {
        let input = File::open(&self.input).map_err(|error| self.trouble(error))?;
        let mut command = Command::new(&self.path);
        let output = command.args(&self.words).stdin(input).output();
        Ok(output.map_err(|error| self.trouble(error))?.stdout)
    }

    fn trouble(&self, error: std::io::Error) -> String {
        format!("{}: {error}", self.path.display())
    }
}

impl Drop for Program {
    /// The file may not have been made.
    fn drop(&mut self) {
        remove_file(&self.input).unwrap_or(());
    }
}

/// Every sequent is made by itself where sequents times rows are at most this.
const LITTLE: usize = 20_000;

/// In other tables the first, the last and at most so many between.
const BETWEEN: usize = 6;

/// A program, and the services that make its list sequent by sequent if there are any.
struct Pair<'a> {
    program: &'a Program,
    services: Option<&'a dyn Services>,
}

impl Pair<'_> {
    /// The first rows that differ, if any do.
    fn difference(&self, table: &[u8]) -> Result<Option<String>, String> {
        self.program.read(table)?;
        let printed = self.program.output()?;
        let expected = print(table);
        if printed != expected {
            return Ok(Some(first_row(&expected, &printed)));
        }
        let Some(services) = self.services else {
            return Ok(None);
        };
        let held = hold_some(services, table, &printed);
        Ok(held.difference.is_some().then(|| held.report()))
    }
}

/// Holds what was printed against the list made sequent by sequent, or against some sequents of it.
fn hold_some(services: &dyn Services, table: &[u8], printed: &[u8]) -> Held {
    let (count, rows) = (check(table).unwrap_or(0), table.len() / ROW_BYTES);
    let mut random = Random::new(printed.len() as u64);
    let mut some: Vec<u64> = (0..BETWEEN)
        .map(|_| 1 + random.below(count) as u64)
        .collect();
    some.extend([1, count as u64]);
    hold_chosen(services, table, printed, |k| {
        count * rows <= LITTLE || some.contains(&k)
    })
}

/// Compares what is printed for the tables of so many seeds with what this program prints, and with the list that the
/// services make sequent by sequent. The error has the smallest table found.
pub fn compare(
    program: &Program,
    services: Option<&dyn Services>,
    first: u64,
    count: u64,
) -> Result<String, String> {
    let pair = Pair { program, services };
    for seed in first..first + count {
        let table = generate::table(seed);
        if pair.difference(&table)?.is_some() {
            let small = shrink(&table, SHRINKING, |table| {
                pair.difference(table).is_ok_and(|found| found.is_some())
            });
            let found = pair.difference(&small)?.unwrap_or_default();
            return Err(format!(
                "DIFFERENCE at seed {seed}\n{found}\nthe smallest table found, {} bytes:\n{}",
                small.len(),
                shown_table(&small)
            ));
        }
    }
    Ok(format!("{count} tables\nno difference\n"))
}

/// The first row of the output that differs.
fn first_row(expected: &[u8], printed: &[u8]) -> String {
    let same = expected
        .iter()
        .zip(printed)
        .take_while(|(one, other)| one == other);
    let start = same.count() / ROW_BYTES * ROW_BYTES;
    let row = |bytes: &[u8]| {
        let end = bytes.len().min(start + ROW_BYTES);
        bytes[start..end].escape_ascii().to_string()
    };
    format!(
        "row {} of the output\nexpected {}\ngot      {}",
        start / ROW_BYTES + 1,
        row(expected),
        row(printed)
    )
}
