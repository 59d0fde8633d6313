//! Long logs, cut and damaged around the places where a part of the log may end: a program may hold only one part at a time.

use super::first_row;
use crate::checks::accept;
use crate::replay::{replayed, NOT_A_RUN, OUTSIDE, UNDEFINED};
use crate::rows::{bytes_of, layout, read_row, Row, ROW_BYTES};
use crate::runs::recorded::{set_row, Recorded};
use crate::runs::simulate::simulate;
use std::collections::{BTreeMap, BTreeSet};
use std::fmt::{Display, Formatter, Result as Written};

/// The sizes of parts: the powers of two from the first to the second.
const SMALLEST: usize = 1 << 12;
const LARGEST: usize = 1 << 19;

/// Models, and steps that make a log of some 600,000 bytes.
const MODELS: [(&str, &str, u64); 2] = [
    (
        "counter",
        include_str!("../../../models/counter.txt"),
        4_700,
    ),
    (
        "free_list",
        include_str!("../../../models/free_list.txt"),
        1_350,
    ),
];

/// A variable v. Event 4 counts it up; event 5 sets it to its parameter x if x³ ÷ x = x², which 0 makes undefined and large
/// numbers outside. Steps have two rows or three.
const SHORT: &str = "
    10 3 1 0; 10 5 1 5                                                         # 1: v, 2: x
    20 1 0 0; 20 2 1 0; 20 1 1 0; 20 10 2 3; 20 2 2 0                          # 1: 0, 4: v + 1, 5: x
    20 2 2 0; 20 2 2 0; 20 12 6 7; 20 2 2 0; 20 12 8 9; 20 2 2 0; 20 13 10 11  # 12: x * x * x / x
    20 2 2 0; 20 2 2 0; 20 12 13 14; 20 20 12 15                               # 16: 12 = x * x
    40 1 0 0; 40 1 1 0; 40 2 0 0; 40 2 1 2; 40 2 1 2
    50 5 16 0; 51 3 1 1; 51 4 1 4; 51 5 1 5
";

/// The shortest log that ends both at a row's end and at a part's end has so many parts, of any of the sizes.
const PARTS: usize = 19;

/// Logs are cut so far from a part's end: a row more or less, and a byte beside that.
const OFFSETS: [isize; 9] = [-39, -38, -37, -1, 0, 1, 37, 38, 39];

/// What is done to a run, at a byte of it or to the row of that byte.
#[derive(Clone, Copy, Debug, PartialEq, Eq, PartialOrd, Ord)]
pub enum Change {
    /// The log ends before the byte.
    Cut,
    /// The last digit of the value, tag or identifier is another one.
    Value,
    Tag,
    Identifier,
    /// The value is 0, or the highest of 32 bits.
    Zero,
    Highest,
    NoDigit,
    MissingByte,
    DoubledByte,
    MissingRow,
    DoubledRow,
}

const DAMAGES: [Change; 10] = [
    Change::Value,
    Change::Tag,
    Change::Identifier,
    Change::Zero,
    Change::Highest,
    Change::NoDigit,
    Change::MissingByte,
    Change::DoubledByte,
    Change::MissingRow,
    Change::DoubledRow,
];

/// The last columns of a row's tag, identifier and value.
const TAG: usize = 3;
const IDENTIFIER: usize = 14;
const VALUE: usize = 25;

/// A table, a real run of it, and how and at which bytes that is changed.
pub struct Long {
    name: &'static str,
    pub table: Vec<u8>,
    run: Recorded,
    changes: Vec<(Change, usize)>,
}

/// A run with one change.
pub struct Case<'a> {
    pub long: &'a Long,
    pub change: Change,
    pub byte: usize,
}

/// The runs with the changes to be compared: three around the ends of parts of all sizes, and two of short steps with ends of
/// parts that are ends of rows too, of steps in the first, inside steps in the second.
pub fn longs() -> Result<Vec<Long>, String> {
    let mut longs = Vec::new();
    for (name, text, steps) in MODELS {
        let table = bytes_of(&layout(text)?);
        let read = accept(&table).map_err(|refusal| format!("{name}: {refusal:?}"))?;
        let run = recorded(simulate(&read, steps, 1)?);
        let changes = around_ends(&run);
        longs.push(Long {
            name,
            table,
            run,
            changes,
        });
    }
    let table = bytes_of(&layout(SHORT)?);
    let short = |name, run, changes: fn(&Recorded) -> Vec<(Change, usize)>| Long {
        name,
        table: table.clone(),
        changes: changes(&run),
        run,
    };
    let (few, many) = (16_000, PARTS * LARGEST / ROW_BYTES + 2);
    longs.extend([
        short("short", counted(few, |step| step % 2 == 1), around_ends),
        short("whole steps", counted(many, |_| false), at_ends),
        short("split steps", counted(many, |step| step == 1), at_ends),
    ]);
    Ok(longs)
}

/// These bytes with the places of the steps.
fn recorded(bytes: Vec<u8>) -> Recorded {
    let rows = bytes.chunks(ROW_BYTES).enumerate();
    let starts = rows.filter(|(_, row)| row.starts_with(b"  90"));
    Recorded {
        starts: starts.map(|(place, _)| place).collect(),
        bytes,
    }
}

/// A run of the short model of at least so many rows, in which these steps set the variable and the others count.
fn counted(rows: usize, sets: fn(i32) -> bool) -> Recorded {
    let mut run = Recorded::default();
    let mut value = 0;
    run.push(&[Row::new(90, 3, 0, 0), Row::new(91, 1, value, 0)]);
    for step in 1.. {
        if run.rows() >= rows {
            break;
        }
        let set = sets(step);
        value = if set { 3 * step } else { value + 1 };
        let event = if set { 5 } else { 4 };
        run.push(&[Row::new(90, event, 0, 0), Row::new(91, 1, value, 0)]);
        if set {
            run.bytes.extend(bytes_of(&[Row::new(91, 2, value, 0)]));
        }
    }
    run
}

/// The sizes of parts.
pub fn sizes() -> impl Iterator<Item = usize> {
    std::iter::successors(Some(SMALLEST), |size| Some(size * 2)).take_while(|&size| size <= LARGEST)
}

/// Cuts and damages around the first three ends of parts of each size, and the whole run.
fn around_ends(run: &Recorded) -> Vec<(Change, usize)> {
    let all = run.bytes.len();
    let ends: BTreeSet<usize> = sizes()
        .flat_map(|size| [size, 2 * size, 3 * size])
        .filter(|&end| end + 2 * ROW_BYTES < all)
        .collect();
    let mut changes = Vec::new();
    for end in ends {
        changes.extend(cuts(run, end).into_iter().map(|byte| (Change::Cut, byte)));
        for byte in [end - ROW_BYTES, end, end + ROW_BYTES] {
            changes.extend(damages(run, byte));
        }
    }
    changes.push((Change::Cut, all));
    changes
}

/// Where to cut around this end: at some bytes, and at the ends of the rows and of the steps before and after it.
fn cuts(run: &Recorded, end: usize) -> BTreeSet<usize> {
    let row = end / ROW_BYTES;
    let step = run.step(run.step_of(row));
    let rows = [row, row + 1, step.start, step.end];
    let bytes = OFFSETS.map(|offset| end.saturating_add_signed(offset));
    bytes
        .into_iter()
        .chain(rows.map(|row| row * ROW_BYTES))
        .collect()
}

/// All damages at this byte that change something.
fn damages(run: &Recorded, byte: usize) -> impl Iterator<Item = (Change, usize)> {
    let is_zero = run.row(byte / ROW_BYTES).b == 0;
    let some = move |change: &Change| !(is_zero && *change == Change::Zero);
    DAMAGES.into_iter().filter(some).map(move |one| (one, byte))
}

/// Cuts and changed values where an end of a part of each size is the end of a row too.
fn at_ends(run: &Recorded) -> Vec<(Change, usize)> {
    let ends = sizes().map(|size| PARTS * size);
    let mut changes: Vec<(Change, usize)> = ends
        .flat_map(|end| {
            [
                (Change::Cut, end - 1),
                (Change::Cut, end),
                (Change::Cut, end + 1),
                (Change::Value, end - 1),
                (Change::Value, end),
            ]
        })
        .collect();
    changes.push((Change::Cut, run.bytes.len()));
    changes
}

impl Long {
    pub fn cases(&self) -> impl Iterator<Item = Case<'_>> {
        self.changes.iter().map(|&(change, byte)| Case {
            long: self,
            change,
            byte,
        })
    }
}

impl Case<'_> {
    /// The changed run.
    pub fn log(&self) -> Vec<u8> {
        let (run, byte) = (&self.long.run, self.byte);
        let place = byte / ROW_BYTES;
        let row = place * ROW_BYTES..(place + 1) * ROW_BYTES;
        let with_value = |b| Row {
            b,
            ..run.row(place)
        };
        let mut log = run.bytes.clone();
        match self.change {
            Change::Cut => log.truncate(byte),
            Change::Value => other_digit(&mut log[row.start + VALUE]),
            Change::Tag => log[row.start + TAG] ^= b'0' ^ b'1',
            Change::Identifier => other_digit(&mut log[row.start + IDENTIFIER]),
            Change::Zero => set_row(&mut log, place, with_value(0)),
            Change::Highest => set_row(&mut log, place, with_value(i32::MAX)),
            Change::NoDigit => log[byte] = b'x',
            Change::MissingByte => drop(log.remove(byte)),
            Change::DoubledByte => log.insert(byte, run.bytes[byte]),
            Change::MissingRow => drop(log.drain(row)),
            Change::DoubledRow => {
                let twice = run.bytes[row.clone()].iter().copied();
                log.splice(row.start..row.start, twice);
            }
        }
        log
    }
}

impl Display for Case<'_> {
    fn fmt(&self, text: &mut Formatter) -> Written {
        let (name, change, byte) = (self.long.name, self.change, self.byte);
        let row = byte / ROW_BYTES + 1;
        write!(
            text,
            "long log {name}, {change:?} at byte {byte}, row {row}"
        )
    }
}

/// The next digit, or 0 after 9.
fn other_digit(digit: &mut u8) {
    *digit = b'0' + (*digit - b'0' + 1) % 10;
}

/// What a log is expected to give, and where.
#[derive(Clone, Copy, Debug, PartialEq, Eq, PartialOrd, Ord)]
pub enum Sort {
    Run,
    Outside,
    Undefined,
    /// 18 with row 0, a row inside the smallest part, or a later one.
    Ended,
    FirstPart,
    Later,
}

/// All of them must occur.
pub const SORTS: [Sort; 6] = [
    Sort::Run,
    Sort::Outside,
    Sort::Undefined,
    Sort::Ended,
    Sort::FirstPart,
    Sort::Later,
];

impl Sort {
    /// The sort of what is printed, if it is about the log.
    fn of(printed: &[u8]) -> Option<Sort> {
        let Row { tag, a, b, .. } = read_row(printed)?;
        match (tag, a, b) {
            (92, ..) => Some(Sort::Run),
            (89, OUTSIDE, _) => Some(Sort::Outside),
            (89, UNDEFINED, _) => Some(Sort::Undefined),
            (89, NOT_A_RUN, 0) => Some(Sort::Ended),
            (89, NOT_A_RUN, row) if row as usize * ROW_BYTES <= SMALLEST => Some(Sort::FirstPart),
            (89, NOT_A_RUN, _) => Some(Sort::Later),
            _ => None,
        }
    }

    fn words(self) -> &'static str {
        match self {
            Sort::Run => "runs",
            Sort::Outside => "refused by 16",
            Sort::Undefined => "by 17",
            Sort::Ended => "by 18 with row 0",
            Sort::FirstPart => "by 18 in the first 4096 bytes",
            Sort::Later => "by 18 behind them",
        }
    }
}

/// The long logs that were compared, by sort.
#[derive(Clone, Debug, Default, PartialEq, Eq)]
pub struct Counts(pub BTreeMap<Sort, usize>);

impl Counts {
    /// The counts as a line of text.
    pub fn report(&self) -> String {
        let all: usize = self.0.values().sum();
        let sorts = self.0.iter();
        let sorts = sorts.map(|(sort, count)| format!("{count} {}", sort.words()));
        let sorts: Vec<String> = sorts.collect();
        format!("{all} long logs: {}\n", sorts.join(", "))
    }
}

/// Compares what is printed for a table and each of its long logs with what this program prints. The error names the log.
pub fn compare(
    printed: impl Fn(&[u8], &[u8]) -> Result<Vec<u8>, String>,
) -> Result<Counts, String> {
    let mut counts = Counts::default();
    for long in longs()? {
        for case in long.cases() {
            let log = case.log();
            let expected = replayed(&long.table, &log);
            let sort = Sort::of(&expected).ok_or(format!("{case}: the table is refused"))?;
            *counts.0.entry(sort).or_default() += 1;
            let printed = printed(&long.table, &log)?;
            if printed != expected {
                let found = first_row(&expected, &printed);
                return Err(format!("DIFFERENCE at {case}\n{found}"));
            }
        }
    }
    Ok(counts)
}
