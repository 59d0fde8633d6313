//! The comparison finds faults that are put in on purpose, and shows them on small tables.

use crate::common::{self, reply, Fault, Faulty};
use compare::against::{Call, Comparison, Effort, Reply, Services};
use compare::campaign::{compare, shown_table, Found, Report};
use compare::generate::random::Random;
use compare::rows::{Row, ROW_BYTES};
use compare::services::{check, spell_entry, write_sequent};
use compare::shrink::{rows_of, shrink};
use compare::stack::STACK;
use std::collections::BTreeSet;
use std::ffi::c_void;
use std::sync::Mutex;
use std::time::Duration;

fn found(fault: Fault) -> Option<Found> {
    let compared = compare(&Faulty(fault), 0, 300, 1, false);
    compared.expect("no panic").1
}

#[test]
fn no_fault_is_no_difference() {
    let compared = compare(&Faulty(|_, _, _| {}), 0, 300, 2, false);
    let (summary, found) = compared.expect("no panic");
    assert!(found.is_none());
    assert_eq!(summary.tables, 300);
    assert!(summary.refused.iter().all(|&count| count > 0));
    assert_eq!(
        summary.accepted + summary.refused[..12].iter().sum::<u64>(),
        300
    );
}

/// The row that a refusal names is one too low.
#[test]
fn a_wrong_row_is_found() {
    let found = found(|_, reply, _| {
        if reply.number == 8 {
            reply.value -= 1;
        }
    });
    let found = found.expect("found");
    assert_eq!(found.difference.call, Call::Check);
    assert!(found.table.len() <= 4 * ROW_BYTES, "{}", found.report());
}

/// The last row of a GRD sequent has a wrong byte.
#[test]
fn a_wrong_byte_is_found() {
    let found = found(|_, reply, out| {
        if reply.number == 0 && out.starts_with(b"  80          4") {
            out[reply.value as usize * ROW_BYTES - 2] = b'7';
        }
    });
    let found = found.expect("found");
    assert!(matches!(found.difference.call, Call::Write { .. }));
    assert!(found.table.len() <= 8 * ROW_BYTES, "{}", found.report());
    assert!(found.report().contains("the buffers differ first at byte"));
}

/// VAR of an anticipated event has the goal of a convergent one. Five rows show it.
#[test]
fn a_wrong_goal_of_an_anticipated_event_is_found() {
    let found = found(|_, reply, out| {
        if reply.number == 0 && out.starts_with(b"  80          8") {
            let goal = (reply.value as usize - 1) * ROW_BYTES;
            let form = &mut out[goal + 14];
            *form = if *form == b'9' { b'8' } else { *form };
        }
    });
    let found = found.expect("found");
    let smallest = "20 1 0 0; 40 1 0 0; 40 2 0 0; 40 2 3 0; 70 1 0 0";
    assert_eq!(found.table, common::table(smallest), "{}", found.report());
}

/// The byte after the rows is changed.
#[test]
fn a_byte_past_the_rows_is_found() {
    let found = found(|call, reply, out| {
        let end = reply.value as usize * ROW_BYTES;
        if matches!(call, Call::Spell { .. }) && reply.number == 0 && end < out.len() {
            out[end] = b'\n';
        }
    });
    let found = found.expect("found");
    assert!(found.table.len() <= 7 * ROW_BYTES, "{}", found.report());
}

/// A buffer that is too short is written to.
#[test]
fn a_byte_written_on_a_refusal_is_found() {
    let found = found(|_, reply, out| {
        if reply.number == 15 && !out.is_empty() {
            out[0] = b' ';
        }
    });
    assert_eq!(found.expect("found").difference.got.reply.number, 15);
}

/// Only the one number just past the list is taken for its last.
#[test]
fn an_accepted_number_past_the_list_is_found() {
    let found = found(|call, reply, _| {
        if matches!(call, Call::Write { k: 7, .. }) && reply.number == 13 {
            *reply = Reply {
                number: 0,
                value: 0,
            };
        }
    });
    let k = found.expect("found").difference.call;
    assert!(matches!(k, Call::Write { k: 7, .. }));
}

/// A call that panics ends the comparison with an error, also while progress is shown.
#[test]
fn a_panic_ends_the_comparison() {
    let panics: Fault = |call, reply, _| {
        let first = matches!(call, Call::Write { k: 1, .. });
        assert!(reply.number != 0 || !first, "put in on purpose");
    };
    for threads in [1, 2] {
        let compared = compare(&Faulty(panics), 0, 300, threads, true);
        let message = compared.expect_err("a panic");
        assert!(message.starts_with("a panic at seed "), "{message}");
    }
}

#[test]
fn a_torn_table_is_made_smaller_by_bytes() {
    let mut table = vec![b' '; 5 * ROW_BYTES + 3];
    table[100] = b'x';
    let torn = |table: &[u8]| table.contains(&b'x') && !table.len().is_multiple_of(ROW_BYTES);
    let small = shrink(&table, Duration::from_secs(5), torn);
    assert_eq!(small, b"x");
}

/// A division below an accepted table's formula is kept, and little else: at most the 15 rows that a witness of an ordinary
/// event needs.
#[test]
fn an_accepted_table_is_made_smaller() {
    let divides = |table: &[u8]| {
        let rows = rows_of(table).unwrap_or_default();
        check(table).is_ok() && rows.iter().any(|row: &Row| row.tag == 20 && row.a == 13)
    };
    let seeds = 0..400;
    let tables = seeds.map(compare::generate::table);
    let large = tables.filter(|table| divides(table) && table.len() > 200 * ROW_BYTES);
    for table in large.take(5) {
        let small = shrink(&table, Duration::from_secs(20), divides);
        assert!(small.len() <= 15 * ROW_BYTES, "{}", shown_table(&small));
    }
}

extern "C" {
    fn pthread_self() -> usize;
    fn pthread_getattr_np(thread: usize, attributes: *mut c_void) -> i32;
    fn pthread_attr_getstacksize(attributes: *const c_void, size: *mut usize) -> i32;
    fn pthread_attr_destroy(attributes: *mut c_void) -> i32;
}

/// The stack of this thread, in bytes.
fn own_stack() -> usize {
    // More than the attributes of a thread take.
    let mut attributes = [0u64; 32];
    let start = attributes.as_mut_ptr().cast();
    let mut size = 0;
    unsafe {
        assert_eq!(pthread_getattr_np(pthread_self(), start), 0);
        assert_eq!(pthread_attr_getstacksize(start, &mut size), 0);
        assert_eq!(pthread_attr_destroy(start), 0);
    }
    size
}

/// Answers as this program does, and notes the service and the stack that it is called with.
struct Noting(Mutex<BTreeSet<(&'static str, usize)>>);

impl Noting {
    fn note(&self, service: &'static str) {
        let mut noted = self.0.lock().expect("no call panics");
        noted.insert((service, own_stack()));
    }
}

impl Services for Noting {
    fn stack(&self) -> usize {
        STACK
    }

    fn check(&self, table: &[u8]) -> Reply {
        self.note("check");
        reply(check(table))
    }

    fn write_sequent(&self, table: &[u8], k: u64, out: &mut [u8]) -> Reply {
        self.note("write");
        reply(write_sequent(table, k as usize, out))
    }

    fn spell_entry(&self, table: &[u8], k: u64, j: u64, out: &mut [u8]) -> Reply {
        self.note("spell");
        reply(spell_entry(table, k as usize, j as usize, out))
    }
}

/// Every call is made on a thread with the stack that is stated: no more, and no less.
#[test]
fn calls_have_the_stated_stack() {
    let noting = Noting(Mutex::default());
    let table = common::table(common::L);
    let comparison = Comparison::new(&noting, &table).run(Effort::All, &mut Random::new(0));
    assert!(comparison.difference.is_none());
    let noted = noting.0.into_inner().expect("no call panics");
    let stated = ["check", "spell", "write"].map(|service| (service, STACK));
    assert_eq!(noted, BTreeSet::from(stated));
}
