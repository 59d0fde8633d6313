//! Compares an implementation of replay with this one over many tables and logs.

use crate::against::Reply;
use crate::batches::{Batched, Replies};
use crate::campaign::{shown_table, Report};
use crate::checks::{accept, Refusal};
use crate::numbers::{Place, Sum};
use crate::replay::machine::Machine;
use crate::replay::{replay, Stop, OUTSIDE};
use crate::rows::ROW_BYTES;
use crate::runs::batch::{batch, Batch, LOGS};
use crate::shrink::{shrink_pair, whole_rows};
use crate::stack::on_thread;
use std::time::Duration;

/// Replay, as the C header has it.
pub trait Replays: Sync {
    /// Bytes of stack for a thread that calls.
    fn stack(&self) -> usize;
    fn replay(&self, table: &[u8], run: &[u8]) -> Reply;
}

/// Time for making a table and a log with a difference smaller.
const SHRINKING: Duration = Duration::from_secs(60);

/// Counts over what was compared.
#[derive(Clone, Debug, Default)]
pub struct Summary {
    pub tables: u64,
    pub logs: u64,
    /// Logs by the number of the reply, 0 for runs.
    pub replies: Replies,
}

/// A table and a log with a difference, and later the smallest ones made from them.
#[derive(Clone, Debug)]
pub struct Found {
    pub at: Place,
    /// Which log of the batch, from 0.
    pub place: usize,
    pub table: Vec<u8>,
    pub log: Vec<u8>,
    pub expected: Reply,
    pub got: Reply,
}

impl Batched for dyn Replays + '_ {
    type Batch = Batch;
    type Summary = Summary;
    type Found = Found;
    const SIZE: usize = LOGS;

    fn batch(number: u64, most: usize) -> Batch {
        let mut batch = batch(number);
        batch.logs.truncate(most);
        batch
    }

    fn take(&self, at: Place, batch: Batch, summary: &mut Summary) -> Option<Found> {
        let expected = expected(&batch);
        summary.count(&expected);
        let (place, got) = first_difference(self, &batch, &expected)?;
        Some(Found {
            at,
            place,
            log: batch.logs[place].clone(),
            table: batch.table,
            expected: expected[place],
            got,
        })
    }

    /// An accepted table stays accepted.
    fn smaller(&self, found: Found) -> Found {
        let both = |table: &[u8], log: &[u8]| {
            let got = on_thread(self.stack(), || self.replay(table, log));
            (reply(replay(table, log)), got)
        };
        let (table, log) = shrink_pair(&found.table, &found.log, SHRINKING, |table, log| {
            let (expected, got) = both(table, log);
            expected != got && is_of_log(expected) == is_of_log(found.expected)
        });
        let (expected, got) = both(&table, &log);
        Found {
            table,
            log,
            expected,
            got,
            ..found
        }
    }
}

/// The first of so many batches that shows a difference, if one does; it isn't made smaller.
pub fn first_batch(replays: &dyn Replays, batches: u64) -> Option<u64> {
    (0..batches).find(|&number| {
        let batch = batch(number);
        first_difference(replays, &batch, &expected(&batch)).is_some()
    })
}

/// What each log of the batch must give. The table is checked once.
fn expected(batch: &Batch) -> Vec<Reply> {
    let machine = accept(&batch.table).map(|table| Machine::of(&table));
    let answer = |log: &Vec<u8>| match &machine {
        Ok(machine) => machine.replay(log).map_err(Stop::refusal),
        Err(refusal) => Err(*refusal),
    };
    batch.logs.iter().map(|log| reply(answer(log))).collect()
}

/// The first log that is answered in another way, on a thread with the stack that is stated and no more.
fn first_difference(
    replays: &dyn Replays,
    batch: &Batch,
    expected: &[Reply],
) -> Option<(usize, Reply)> {
    on_thread(replays.stack(), || {
        let replies = batch.logs.iter().zip(expected).enumerate();
        for (place, (log, &expected)) in replies {
            let got = replays.replay(&batch.table, log);
            if got != expected {
                return Some((place, got));
            }
        }
        None
    })
}

/// What a call must answer.
pub fn reply(answer: Result<u64, Refusal>) -> Reply {
    match answer {
        Ok(value) => Reply { number: 0, value },
        Err(refusal) => Reply {
            number: refusal.number as u64,
            value: refusal.row as u64,
        },
    }
}

/// Whether a reply is about the log, so that the table is accepted.
pub fn is_of_log(reply: Reply) -> bool {
    reply.number == 0 || reply.number >= OUTSIDE as u64
}

impl Summary {
    fn count(&mut self, replies: &[Reply]) {
        self.tables += 1;
        self.logs += replies.len() as u64;
        for reply in replies {
            self.replies.count(reply.number);
        }
    }
}

impl Sum for Summary {
    fn add(&mut self, other: &Summary) {
        self.tables += other.tables;
        self.logs += other.logs;
        self.replies.add(&other.replies);
    }
}

impl Report for Summary {
    fn report(&self) -> String {
        let counts = format!("{} tables, {} logs\n", self.tables, self.logs);
        counts + &self.replies.report("runs")
    }
}

impl Report for Found {
    /// The difference with its table and log.
    fn report(&self) -> String {
        let mut text = format!(
            "DIFFERENCE at {}, log {}\nexpected {}\ngot      {}\n",
            self.at, self.place, self.expected, self.got
        );
        text += &format!("the smallest table found, {} bytes:\n", self.table.len());
        text += &shown_table(&self.table);
        text += &format!("its log, {} bytes:\n", self.log.len());
        text + &shown_log(&self.log)
    }
}

/// Rows of a log that are shown from either end.
const SHOWN: usize = 60;

/// The rows as text as far as they are in the row form, then the bytes escaped, row by row; of a long log the ends.
pub fn shown_log(log: &[u8]) -> String {
    let (rows, rest) = log.split_at(whole_rows(log) * ROW_BYTES);
    let mut lines: Vec<String> = shown_table(rows).lines().map(String::from).collect();
    let rest = rest.chunks(ROW_BYTES);
    lines.extend(rest.map(|bytes| format!("\"{}\"", bytes.escape_ascii())));
    if lines.len() > 2 * SHOWN {
        let left_out = SHOWN..lines.len() - SHOWN;
        let more = format!("... {} rows more ...", left_out.len());
        lines.splice(left_out, [more]);
    }
    lines.iter().map(|line| format!("{line}\n")).collect()
}
