//! Long logs: what they give, and that programs which read them wrongly, part by part, are found.

use compare::checks::accept;
use compare::program::long::{compare, longs, sizes, Change, SORTS};
use compare::program::replay::Replayer;
use compare::replay::machine::Machine;
use compare::replay::{replayed, Cause, Role, Stop, Verdict};
use compare::rows::{bytes_of, read_row, Row, ROW_BYTES};
use std::path::Path;

#[test]
fn the_right_answers_are_no_difference_and_of_every_sort() {
    let counts = compare(|table, log| Ok(replayed(table, log))).expect("the same");
    for sort in SORTS {
        let count = counts.0.get(&sort).copied().unwrap_or(0);
        assert!(count >= 5, "{sort:?} {count}");
    }
    let all: usize = counts.0.values().sum();
    let report = counts.report();
    assert!(
        report.starts_with(&format!("{all} long logs: ")),
        "{report}"
    );
    assert!((1_000..=2_000).contains(&all), "{report}");
}

/// Parts of the largest size end inside every run.
#[test]
fn every_run_is_longer_than_the_largest_part() {
    let largest = sizes().last().expect("a size");
    for long in longs().expect("runs") {
        let mut damaged = long.cases().filter(|case| case.change != Change::Cut);
        assert!(damaged.any(|case| case.byte > largest));
    }
}

/// What is found in a program that prints this for a table and a log.
fn found(printed: impl Fn(&[u8], &[u8]) -> Vec<u8>) -> String {
    let found = compare(|table, log| Ok(printed(table, log))).expect_err("found");
    assert!(found.starts_with("DIFFERENCE at long log "), "{found}");
    assert!(
        found.contains("\nrow 1 of the output\nexpected "),
        "{found}"
    );
    found
}

/// The log in parts of this size.
fn parts(log: &[u8], size: usize) -> Vec<&[u8]> {
    log.chunks(size).collect()
}

#[test]
fn a_byte_lost_at_the_end_of_a_part_is_found() {
    found(|table, log| {
        let parts = parts(log, 65_536);
        let later = parts.iter().skip(1).flat_map(|part| &part[1..]);
        let read: Vec<u8> = parts[0].iter().chain(later).copied().collect();
        replayed(table, &read)
    });
}

#[test]
fn a_byte_read_twice_at_the_end_of_a_part_is_found() {
    found(|table, log| {
        let twice = |part: &&[u8]| [&part[..1], part].concat();
        let mut read: Vec<u8> = parts(log, 65_536).iter().flat_map(twice).collect();
        read.remove(0);
        replayed(table, &read)
    });
}

#[test]
fn rows_counted_anew_in_each_part_are_found() {
    found(|table, log| {
        let printed = read_row(&replayed(table, log)).expect("a row");
        let row_bytes = ROW_BYTES as i32;
        let start = (printed.b - 1).max(0) * row_bytes;
        let b = printed.b - start / 8_192 * 8_192 / row_bytes;
        bytes_of(&[Row { b, ..printed }])
    });
}

#[test]
fn a_log_that_is_read_up_to_the_end_of_a_part_is_found() {
    found(|table, log| replayed(table, &log[..log.len().min(262_144)]));
}

/// Only the longest runs have so many steps.
#[test]
fn steps_counted_in_16_bits_are_found() {
    let found = found(|table, log| {
        let printed = read_row(&replayed(table, log)).expect("a row");
        let a = printed.a % 65_536;
        bytes_of(&[Row { a, ..printed }])
    });
    assert!(found.contains(" whole steps, "), "{found}");
}

/// A program that prints nothing is found by the first log, which is named.
#[test]
fn a_difference_names_the_log() {
    let program = Replayer::new(Path::new(env!("CARGO_BIN_EXE_compare")), &["nothing"]);
    let found = compare(|table, log| program.output(table, log)).expect_err("found");
    let start = "DIFFERENCE at long log counter, Cut at byte 4057, row 107\nrow 1 of the output\n";
    assert!(found.starts_with(start), "{found}");
    assert!(found.ends_with("\ngot      "), "{found}");
}

/// A log, what it gives, and a size of parts.
struct Met<'a> {
    log: &'a [u8],
    answer: Result<u64, Stop>,
    size: usize,
}

impl Met<'_> {
    /// Whether the log ends at the end of a part.
    fn ends_with_part(&self) -> bool {
        self.log.len().is_multiple_of(self.size)
    }

    fn stops(&self, causes: &[Cause]) -> bool {
        self.answer.is_err_and(|stop| causes.contains(&stop.cause))
    }

    fn is_torn(&self) -> bool {
        self.stops(&[Cause::TornBetween, Cause::TornInside])
    }

    /// Whether the row that is named, and so many bytes from its start, lie in two parts.
    fn is_split(&self, bytes: usize) -> bool {
        let row = self.answer.map_or_else(|stop| stop.row, |_| 0);
        let start = row.saturating_sub(1) * ROW_BYTES;
        let end = self.log.len().min(start + bytes);
        row > 0 && start / self.size < (end - 1) / self.size
    }

    /// The bytes of the step whose row 90 is named.
    fn step(&self) -> usize {
        let row = self.answer.map_or_else(|stop| stop.row, |_| 0);
        let rows = self.log.chunks(ROW_BYTES).skip(row);
        let more = rows.take_while(|row| row.starts_with(b"  91")).count();
        (1 + more) * ROW_BYTES
    }
}

const OUTSIDE: Cause = Cause::Formula(Role::Guard, Verdict::Outside);
const UNDEFINED: Cause = Cause::Formula(Role::Guard, Verdict::Undefined);
const NOT_EQUAL: Cause = Cause::Formula(Role::Equal, Verdict::False);

/// Whether something is met.
type Is = fn(&Met) -> bool;

/// What must be met with parts of every size.
const EVERYWHERE: [(&str, Is); 7] = [
    ("a run ends with a part", |met| {
        met.answer.is_ok() && met.ends_with_part()
    }),
    ("the log ends with a part, inside a step", |met| {
        met.stops(&[Cause::Ended]) && met.ends_with_part()
    }),
    ("the log ends with a part, inside a row", |met| {
        met.is_torn() && met.ends_with_part()
    }),
    ("a torn row lies in two parts", |met| {
        met.is_torn() && met.is_split(ROW_BYTES)
    }),
    ("a row out of form lies in two parts", |met| {
        met.stops(&[Cause::Form]) && met.is_split(ROW_BYTES)
    }),
    ("another row than expected lies in two parts", |met| {
        met.stops(&[Cause::Tag, Cause::Identifier, Cause::Event]) && met.is_split(ROW_BYTES)
    }),
    ("a step that isn't allowed lies in two parts", |met| {
        met.stops(&[NOT_EQUAL]) && met.is_split(met.step())
    }),
];

/// What must be met with parts of some size.
const SOMEWHERE: [(&str, Is); 7] = [
    ("a step with 16 lies in two parts", |met| {
        met.stops(&[OUTSIDE]) && met.is_split(met.step())
    }),
    ("a step with 17 lies in two parts", |met| {
        met.stops(&[UNDEFINED]) && met.is_split(met.step())
    }),
    ("a torn row follows a step", |met| {
        met.stops(&[Cause::TornBetween])
    }),
    ("a torn row is inside a step", |met| {
        met.stops(&[Cause::TornInside])
    }),
    ("an unused column is used", |met| {
        met.stops(&[Cause::Unused])
    }),
    ("more steps than 16 bits count", |met| {
        met.answer.is_ok_and(|steps| steps > 65_535)
    }),
    ("more rows than 16 bits count", |met| {
        met.answer.is_err_and(|stop| stop.row > 65_535)
    }),
];

/// An end of a larger part is an end of a smaller one, so what is met anywhere is met with the smallest.
#[test]
fn parts_of_every_size_end_where_they_matter() {
    let mut left: Vec<(&str, usize, Is)> = Vec::new();
    for size in sizes() {
        left.extend(EVERYWHERE.map(|(name, is)| (name, size, is)));
    }
    let smallest = sizes().next().expect("a size");
    left.extend(SOMEWHERE.map(|(name, is)| (name, smallest, is)));
    for long in longs().expect("runs") {
        let machine = Machine::of(&accept(&long.table).expect("accepted"));
        for case in long.cases() {
            let log = &case.log()[..];
            let answer = machine.replay(log);
            left.retain(|&(_, size, is)| !is(&Met { log, answer, size }));
        }
    }
    let left: Vec<(&str, usize)> = left.iter().map(|one| (one.0, one.1)).collect();
    assert!(left.is_empty(), "{left:?}");
}
