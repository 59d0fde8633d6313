//! What is printed is held against the list made sequent by sequent: faults put in on purpose on either side are found.

use crate::common::{table, Fault, Faulty, L, RICH};
use compare::against::{Call, Reply};
use compare::by_sequent::{hold, hold_chosen, Difference, Fault as Found, Held};
use compare::generate;
use compare::program::{self, Program};
use compare::rows::ROW_BYTES;
use compare::services::{print, Answers};
use std::path::Path;

const NO_FAULT: Faulty = Faulty(|_, _, _| {});

fn held(table: &[u8], printed: &[u8]) -> Held {
    hold(&NO_FAULT, table, printed)
}

/// The byte and the sequent of the difference that must be there.
fn place(held: Held) -> (usize, u64) {
    let Difference { byte, sequent, .. } = held.difference.expect("a difference");
    (byte, sequent)
}

/// Where each sequent of a table ends in what is printed.
fn ends(table: &[u8]) -> Vec<usize> {
    let answers = Answers::of(table);
    let count = answers.check().expect("accepted");
    let mut end = 0;
    let rows = (1..=count).map(|k| answers.sequent(k).expect("in the list").len());
    rows.map(|rows| {
        end += rows * ROW_BYTES;
        end
    })
    .collect()
}

#[test]
fn what_is_the_same_is_accepted() {
    for text in [L, RICH, include_str!("../../../models/refused.txt")] {
        let table = table(text);
        assert_eq!(held(&table, &print(&table)).difference, None);
    }
    for seed in 0..60 {
        let table = generate::table(seed);
        if table.len() < 300 * ROW_BYTES {
            let held = held(&table, &print(&table));
            assert_eq!(held.difference, None, "seed {seed}");
        }
    }
}

/// Every byte of L's list, and the sequent in which it stands.
#[test]
fn a_byte_is_found() {
    let table = table(L);
    let (printed, ends) = (print(&table), ends(&table));
    for byte in 0..printed.len() {
        let mut changed = printed.clone();
        changed[byte] ^= 1;
        let sequent = 1 + ends.iter().filter(|&&end| end <= byte).count() as u64;
        assert_eq!(place(held(&table, &changed)), (byte + 1, sequent));
    }
}

/// Two sequents in a row change places.
#[test]
fn an_order_is_found() {
    let table = table(RICH);
    let (printed, ends) = (print(&table), ends(&table));
    for two in 1..ends.len() {
        let start = if two == 1 { 0 } else { ends[two - 2] };
        let (middle, end) = (ends[two - 1], ends[two]);
        let mut changed = printed.clone();
        changed[start..end].rotate_left(middle - start);
        let (byte, sequent) = place(held(&table, &changed));
        assert_eq!(sequent, two as u64);
        assert!((start + 1..=middle).contains(&byte), "{byte}");
    }
}

/// A sequent is printed once more, or not at all.
#[test]
fn a_repetition_and_a_gap_are_found() {
    let table = table(RICH);
    let (printed, ends) = (print(&table), ends(&table));
    for k in 1..=ends.len() {
        let (start, end) = (if k == 1 { 0 } else { ends[k - 2] }, ends[k - 1]);
        let again = [&printed[..end], &printed[start..]].concat();
        let (byte, sequent) = place(held(&table, &again));
        assert!(byte > end && sequent == k as u64 + 1, "{byte} {sequent}");
        let without = [&printed[..start], &printed[end..]].concat();
        let (byte, sequent) = place(held(&table, &without));
        assert!(byte > start && sequent == k as u64, "{byte} {sequent}");
    }
}

/// The first event's sequents stand in place of all, in the same number.
#[test]
fn sequents_printed_under_other_numbers_are_found() {
    let table = table(L);
    let (printed, ends) = (print(&table), ends(&table));
    let first = &printed[..ends[0]];
    let repeated = first.repeat(ends.len());
    assert_eq!(place(held(&table, &repeated)).1, 2);
}

#[test]
fn an_end_is_found() {
    let table = table(L);
    let printed = print(&table);
    let size = printed.len();
    assert_eq!(place(held(&table, b"")), (1, 1));
    assert_eq!(place(held(&table, &printed[..size - 1])), (size, 2));
    let more = [&printed[..], b"\n"].concat();
    assert_eq!(place(held(&table, &more)), (size + 1, 3));
}

/// A refused table has one row 89: neither none, nor another, nor one more.
#[test]
fn a_refusal_is_held_against_row_89() {
    let torn = table("10 2 1 0");
    assert_eq!(held(&torn, &table("89 12 0 0")).difference, None);
    assert_eq!(place(held(&torn, b"")), (1, 0));
    assert_eq!(place(held(&torn, &table("89 12 1 0"))), (26, 0));
    assert_eq!(place(held(&torn, &table("89 12 0 0; 89 12 0 0"))), (39, 0));
    // and an accepted one has none
    assert_eq!(place(held(&table(L), &table("89 12 0 0"))).1, 1);
}

fn with(fault: Fault) -> Held {
    let table = table(L);
    hold(&Faulty(fault), &table, &print(&table))
}

/// The other side is at fault: a byte, the count, the room.
#[test]
fn a_fault_of_the_services_is_found() {
    let byte = with(|call, _, out| {
        if matches!(call, Call::Write { k: 2, .. }) {
            out[40] = b'x';
        }
    });
    assert_eq!(place(byte), (4 * ROW_BYTES + 41, 2));
    let low = with(|call, reply, _| reply.value -= u64::from(call == Call::Check));
    assert_eq!(place(low).1, 2);
    let high = with(|call, reply, _| reply.value += u64::from(call == Call::Check));
    assert_eq!(place(high).1, 3);
    let room = with(|call, reply, _| {
        if matches!(call, Call::Write { k: 2, .. }) {
            *reply = Reply {
                number: 15,
                value: 0,
            };
        }
    });
    let difference = room.difference.expect("a difference");
    assert!(matches!(difference.fault, Found::Reply { room: 190, .. }));
    assert_eq!((difference.byte, difference.sequent), (153, 2));
}

/// A byte in a sequent that isn't chosen stays unseen, but an end doesn't.
#[test]
fn chosen_sequents_stand_in_their_places() {
    let table = table(L);
    let mut printed = print(&table);
    printed[0] = b'x';
    let chosen = |printed: &[u8]| hold_chosen(&NO_FAULT, &table, printed, |k| k == 2);
    assert_eq!(chosen(&printed).difference, None);
    printed.push(b'x');
    assert_eq!(place(chosen(&printed)).1, 3);
    printed[ends(&table)[1] - 2] = b'x';
    assert_eq!(place(chosen(&printed)).1, 2);
}

#[test]
fn lines_say_what_differs() {
    let table = table(L);
    let mut printed = print(&table);
    assert_eq!(held(&table, &printed).report(), "count 2, 342 bytes, same");
    printed[37] = b'x';
    assert_eq!(
        held(&table, &printed).report(),
        "count 2, 342 bytes, DIFFERENCE at byte 38 (row 1), sequent 1\n\
         by sequent \"  80          6          2          1\\n\"\n\
         printed    \"  80          6          2          1x\""
    );
}

/// The whole way: a program's own output against services with and without a fault, over generated tables.
#[test]
fn a_program_is_run() {
    let program = Program::new(Path::new(env!("CARGO_BIN_EXE_compare")), &["print"]);
    let compared = |fault| program::compare(&program, Some(&Faulty(fault)), 20, 40);
    assert_eq!(
        compared(|_, _, _| {}),
        Ok("40 tables\nno difference\n".to_string())
    );
    let wrong = compared(|_, reply, out| {
        if reply.number == 0 && out.starts_with(b"  80          2") {
            out[ROW_BYTES - 2] = b'x';
        }
    });
    let report = wrong.expect_err("a difference");
    assert!(report.starts_with("DIFFERENCE at seed"), "{report}");
    assert!(report.contains("by sequent"), "{report}");
}

/// The command fails if a program prints one byte otherwise, and says where.
#[cfg(library)]
#[test]
fn the_command_fails() {
    use std::fs::remove_file;
    use std::process::Command;

    let compare = env!("CARGO_BIN_EXE_compare");
    let name = format!("compare-{}-wrong", std::process::id());
    let script = std::env::temp_dir().join(name);
    let text = format!("#!/bin/sh\n'{compare}' print | sed '1s/^ /x/'\n");
    // another process writes it: this one may be starting others, and a script that one of them holds open can't be run
    let mut writer = Command::new("sh");
    writer
        .arg("-c")
        .arg("printf %s \"$1\" >\"$0\" && chmod 700 \"$0\"");
    let written = writer.arg(&script).arg(text).status();
    assert!(written.expect("a script is written").success());
    let mut command = Command::new(compare);
    command.arg("by-sequent").arg(&script);
    let output = command.arg("../models/L.txt").output().expect("runs");
    remove_file(&script).expect("the script is there");
    assert_eq!(output.status.code(), Some(1));
    let lines = String::from_utf8_lossy(&output.stdout);
    let start = "../models/L.txt: count 2, 342 bytes, DIFFERENCE at byte 1 (row 1), sequent 1";
    assert!(lines.starts_with(start), "{lines}");
    // and a line for each timed table
    let timed = compare::bench::tables().len();
    assert_eq!(lines.matches("DIFFERENCE at byte 1 ").count(), 1 + timed);
}
