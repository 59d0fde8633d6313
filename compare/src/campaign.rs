//! Compares an implementation with this one over many tables: those of seeds, or a list.

use crate::against::{Call, Comparison, Difference, Effort, Services};
use crate::generate;
use crate::generate::random::Random;
use crate::numbers::{Numbers, Place, Sum, Taken};
use crate::rows::ROW_BYTES;
use crate::shrink::{rows_of, shrink};
use std::ops::Range;
use std::time::Duration;

/// Tables of at most so many bytes get every call that is chosen with buffers of each length.
const SMALL: usize = 20 * ROW_BYTES;

/// Tables of more bytes get few calls.
const LARGE: usize = 250 * ROW_BYTES;

/// Time for making a table with a difference smaller.
const SHRINKING: Duration = Duration::from_secs(60);

/// What is shown as lines of text.
pub trait Report {
    fn report(&self) -> String;
}

/// Counts over the tables that were compared.
#[derive(Clone, Debug, Default)]
pub struct Summary {
    pub tables: u64,
    pub calls: u64,
    pub accepted: u64,
    /// Tables refused by 1 to 12, then calls refused by 13 to 15.
    pub refused: [u64; 15],
}

/// A table with a difference, and the smallest one made from it.
#[derive(Clone, Debug)]
pub struct Found {
    pub at: Place,
    pub rows: usize,
    pub table: Vec<u8>,
    pub difference: Difference,
}

/// Tables by number, and how many calls to make with each.
trait Tables: Sync {
    /// What a number is.
    fn word(&self) -> &'static str;
    fn table(&self, number: u64) -> Vec<u8>;
    fn effort(&self, table: &[u8]) -> Effort;
}

/// The tables of seeds, the fewer calls the larger they are.
struct Seeds;

impl Tables for Seeds {
    fn word(&self) -> &'static str {
        "seed"
    }

    fn table(&self, seed: u64) -> Vec<u8> {
        generate::table(seed)
    }

    fn effort(&self, table: &[u8]) -> Effort {
        match table.len() {
            0..=SMALL => Effort::All,
            LARGE.. => Effort::Few,
            _ => Effort::Some,
        }
    }
}

/// Tables counted from 0, with calls for every sequent and entry.
struct List<'a>(&'a [Vec<u8>]);

impl Tables for List<'_> {
    fn word(&self) -> &'static str {
        "table"
    }

    fn table(&self, number: u64) -> Vec<u8> {
        self.0[number as usize].clone()
    }

    fn effort(&self, _: &[u8]) -> Effort {
        Effort::Every
    }
}

/// Compares the tables of so many seeds from the first on, as below.
pub fn compare(
    services: &dyn Services,
    first: u64,
    count: u64,
    threads: usize,
    progress: bool,
) -> Taken<Summary, Found> {
    let seeds = first..first + count;
    compare_tables(services, &Seeds, seeds, threads, progress)
}

/// Compares all tables of a list, as below.
pub fn compare_list(
    services: &dyn Services,
    list: &[Vec<u8>],
    threads: usize,
) -> Taken<Summary, Found> {
    let numbers = 0..list.len() as u64;
    compare_tables(services, &List(list), numbers, threads, true)
}

/// Compares the tables with these numbers. Stops at a difference, made smaller.
/// The error names a number at which making the table or calling the services panicked.
fn compare_tables(
    services: &dyn Services,
    tables: &dyn Tables,
    numbers: Range<u64>,
    threads: usize,
    progress: bool,
) -> Taken<Summary, Found> {
    let numbers = Numbers {
        range: numbers,
        threads,
        word: tables.word(),
        words: "tables",
        progress,
    };
    let taken = numbers.take(|at, summary| take_number(services, tables, at, summary));
    let (summary, found) = taken?;
    Ok((summary, found.map(|one| smaller(services, one))))
}

/// Compares the table with one number.
fn take_number(
    services: &dyn Services,
    tables: &dyn Tables,
    at: Place,
    summary: &mut Summary,
) -> Option<Found> {
    let table = tables.table(at.number);
    let effort = tables.effort(&table);
    let mut random = Random::new(!at.number);
    let comparison = Comparison::new(services, &table).run(effort, &mut random);
    summary.count(&comparison);
    let difference = comparison.difference?;
    Some(Found {
        at,
        rows: table.len() / ROW_BYTES,
        table,
        difference,
    })
}

/// Makes the table smaller as long as some call differs.
fn smaller(services: &dyn Services, mut found: Found) -> Found {
    let mut last = found.difference.clone();
    found.table = shrink(&found.table, SHRINKING, |table| {
        let comparison = Comparison::new(services, table).run_near(&last, &mut Random::new(0));
        let mut difference = comparison.difference;
        if difference.is_none() && table.len() <= 5 * SMALL {
            let again = Comparison::new(services, table).run(Effort::Every, &mut Random::new(0));
            difference = again.difference;
        }
        let differs = difference.is_some();
        last = difference.unwrap_or(last.clone());
        differs
    });
    found.difference = last;
    found
}

impl Summary {
    fn count(&mut self, comparison: &Comparison) {
        self.tables += 1;
        self.calls += comparison.calls;
        match comparison.checked() {
            Ok(_) => self.accepted += 1,
            Err(refusal) => self.refused[refusal.number as usize - 1] += 1,
        }
        for (sum, calls) in self.refused[12..].iter_mut().zip(comparison.refused) {
            *sum += calls;
        }
    }
}

impl Sum for Summary {
    fn add(&mut self, other: &Summary) {
        self.tables += other.tables;
        self.calls += other.calls;
        self.accepted += other.accepted;
        for (sum, one) in self.refused.iter_mut().zip(other.refused) {
            *sum += one;
        }
    }
}

impl Report for Summary {
    fn report(&self) -> String {
        let mut text = format!(
            "{} tables, {} calls\naccepted {}\nrefused (tables)",
            self.tables, self.calls, self.accepted
        );
        for (place, count) in self.refused.iter().enumerate() {
            if place == 12 {
                text += "\nrefused (calls with accepted tables)";
            }
            text += &format!(" {}:{count}", place + 1);
        }
        text + "\n"
    }
}

impl Report for Found {
    /// The difference and its table.
    fn report(&self) -> String {
        let Difference {
            call,
            expected,
            got,
            ..
        } = &self.difference;
        let mut text = format!(
            "DIFFERENCE at {}, a table of {} rows\n{}\n",
            self.at,
            self.rows,
            shown_call(*call)
        );
        text += &format!("expected {}\ngot      {}\n", expected.reply, got.reply);
        text += &first_byte(&expected.buffer, &got.buffer);
        text += &format!("the smallest table found, {} bytes:\n", self.table.len());
        text + &shown_table(&self.table)
    }
}

fn shown_call(call: Call) -> String {
    match call {
        Call::Check => "check".to_string(),
        Call::Write { k, room } => format!("write sequent {k}, {room} bytes of room"),
        Call::Spell { k, j, room } => {
            format!("spell entry {j} of sequent {k}, {room} bytes of room")
        }
    }
}

/// The first byte that differs, counted from the buffer's start, and the bytes around it.
fn first_byte(expected: &[u8], got: &[u8]) -> String {
    let Some(place) = expected
        .iter()
        .zip(got)
        .position(|(one, other)| one != other)
    else {
        return String::new();
    };
    let around = |bytes: &[u8]| {
        let end = bytes.len().min(place + ROW_BYTES);
        bytes[place.saturating_sub(8)..end]
            .escape_ascii()
            .to_string()
    };
    format!(
        "the buffers differ first at byte {}\nexpected {}\ngot      {}\n",
        place as i64 - crate::against::MARGIN as i64,
        around(expected),
        around(got)
    )
}

/// The rows as text that can be laid out again, or the bytes escaped.
pub fn shown_table(table: &[u8]) -> String {
    let Some(rows) = rows_of(table) else {
        return format!("\"{}\"\n", table.escape_ascii());
    };
    let lines = rows
        .iter()
        .map(|row| format!("{} {} {} {}\n", row.tag, row.a, row.b, row.c));
    lines.collect()
}
