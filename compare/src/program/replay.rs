//! Runs a program that replays a log of a table, each in a file, and compares what it prints.

use super::{first_row, own_file, SHRINKING};
use crate::campaign::shown_table;
use crate::replay::{replay, replayed};
use crate::replays::{is_of_log, reply, shown_log};
use crate::runs::batch::{batch, Batch};
use crate::shrink::shrink_pair;
use std::fs::{remove_file, write};
use std::path::{Path, PathBuf};
use std::process::Command;

/// A program with its words, which the names of the two files follow.
pub struct Replayer {
    path: PathBuf,
    words: Vec<String>,
    table: PathBuf,
    log: PathBuf,
}

/// So many logs of each batch are replayed.
const LOGS: usize = 5;

impl Replayer {
    pub fn new(path: &Path, words: &[&str]) -> Replayer {
        Replayer {
            path: path.to_path_buf(),
            words: words.iter().map(|word| word.to_string()).collect(),
            table: own_file("table"),
            log: own_file("log"),
        }
    }

    /// What the program prints for this table and log.
    pub fn output(&self, table: &[u8], log: &[u8]) -> Result<Vec<u8>, String> {
        let trouble = |error: std::io::Error| format!("{}: {error}", self.path.display());
        write(&self.table, table).map_err(trouble)?;
        write(&self.log, log).map_err(trouble)?;
        let mut command = Command::new(&self.path);
        let command = command.args(&self.words).args([&self.table, &self.log]);
        Ok(command.output().map_err(trouble)?.stdout)
    }

    /// What was expected and printed, if they differ.
    fn difference(&self, table: &[u8], log: &[u8]) -> Result<Option<String>, String> {
        let (expected, printed) = (replayed(table, log), self.output(table, log)?);
        let differs = expected != printed;
        Ok(differs.then(|| first_row(&expected, &printed)))
    }

    /// The difference on the smallest table and log found; an accepted table stays accepted.
    fn smallest(&self, table: &[u8], log: &[u8]) -> Result<String, String> {
        let of_log = |table: &[u8], log: &[u8]| is_of_log(reply(replay(table, log)));
        let wanted = of_log(table, log);
        let (table, log) = shrink_pair(table, log, SHRINKING, |table, log| {
            let found = self.difference(table, log);
            found.is_ok_and(|found| found.is_some()) && of_log(table, log) == wanted
        });
        let found = self.difference(&table, &log)?.unwrap_or_default();
        Ok(format!(
            "{found}\nthe smallest table found, {} bytes:\n{}its log, {} bytes:\n{}",
            table.len(),
            shown_table(&table),
            log.len(),
            shown_log(&log)
        ))
    }
}

impl Drop for Replayer {
    /// The files may not have been made.
    fn drop(&mut self) {
        for file in [&self.table, &self.log] {
            remove_file(file).unwrap_or(());
        }
    }
}

/// Compares what is printed for so many generated logs, from the batch `first` on, with what this program prints. The error
/// has the smallest table and log found.
pub fn compare(program: &Replayer, first: u64, logs: u64) -> Result<String, String> {
    let mut left = logs as usize;
    for number in first.. {
        let Batch { table, logs } = batch(number);
        // Other ones of each batch.
        let every = logs.len() / LOGS;
        let chosen = (number as usize % every..logs.len()).step_by(every);
        for place in chosen.take(left) {
            if program.difference(&table, &logs[place])?.is_some() {
                let smallest = program.smallest(&table, &logs[place])?;
                return Err(format!(
                    "DIFFERENCE at batch {number}, log {place}\n{smallest}"
                ));
            }
        }
        left = left.saturating_sub(LOGS);
        if left == 0 {
            break;
        }
    }
    Ok(format!("{logs} logs\nno difference\n"))
}
