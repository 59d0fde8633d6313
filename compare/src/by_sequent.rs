//! Holds what a program prints against the same list made by the services sequent by sequent.

use crate::against::{Reply, Services};
use crate::checks::Refusal;
use crate::rows::{bytes_of, ROW_BYTES};
use crate::services::{refusal_row, Answers};
use crate::stack::on_thread;
use std::panic::resume_unwind;
use std::sync::atomic::{AtomicU64, Ordering};
use std::thread::{available_parallelism, scope};

/// What the services answer for a table, up to the first byte that is printed otherwise.
#[derive(Clone, Debug, PartialEq, Eq)]
pub struct Held {
    /// The count, or the refusal and its row.
    pub check: Reply,
    /// The bytes printed.
    pub bytes: usize,
    pub difference: Option<Difference>,
}

/// The first byte that differs, and its sequent: 0 for row 89, one more than the count after the list.
#[derive(Clone, Debug, PartialEq, Eq)]
pub struct Difference {
    /// Counted from 1.
    pub byte: usize,
    pub sequent: u64,
    pub fault: Fault,
}

#[derive(Clone, Debug, PartialEq, Eq)]
pub enum Fault {
    /// The rows around the byte; what is made may have ended before it, and so may what is printed.
    Rows { made: Vec<u8>, printed: Vec<u8> },
    /// A sequent isn't written into a buffer of just its room.
    Reply { room: usize, reply: Reply },
}

/// What no row has; a buffer is filled with it before a call.
const UNWRITTEN: u8 = 0xA5;

/// Holds all that was printed for a table against row 89, or against every sequent from 1 to the count.
pub fn hold(services: &dyn Services, table: &[u8], printed: &[u8]) -> Held {
    hold_chosen(services, table, printed, |_| true)
}

/// The same with the sequents that are chosen. The others' bytes aren't looked at, but take their place.
pub fn hold_chosen(
    services: &dyn Services,
    table: &[u8],
    printed: &[u8],
    chosen: impl Fn(u64) -> bool + Sync,
) -> Held {
    let check = on_thread(services.stack(), || services.check(table));
    let difference = match check.number {
        0 => first_in_list(services, table, check.value, printed, chosen),
        _ => first_in_rows(&row_89(check), printed, 0, 0),
    };
    Held {
        check,
        bytes: printed.len(),
        difference,
    }
}

fn row_89(check: Reply) -> Vec<u8> {
    bytes_of(&[refusal_row(Refusal {
        number: check.number as i32,
        row: check.value as usize,
    })])
}

/// Sequents still to be made and held against what is printed, by several threads.
struct Work<'a> {
    services: &'a dyn Services,
    table: &'a [u8],
    printed: &'a [u8],
    /// Where each sequent starts, as this program has it; the last one's end stands last.
    starts: Vec<usize>,
    next: AtomicU64,
    count: u64,
    /// The lowest sequent with a difference so far.
    lowest: AtomicU64,
}

fn first_in_list(
    services: &dyn Services,
    table: &[u8],
    count: u64,
    printed: &[u8],
    chosen: impl Fn(u64) -> bool + Sync,
) -> Option<Difference> {
    let work = Work {
        services,
        table,
        printed,
        starts: starts(table),
        next: AtomicU64::new(1),
        count,
        lowest: AtomicU64::new(u64::MAX),
    };
    let take = || on_thread(services.stack(), || take_sequents(&work, &chosen));
    let threads = available_parallelism().map_or(1, |threads| threads.get());
    let found = scope(|scope| {
        let started: Vec<_> = (0..threads).map(|_| scope.spawn(take)).collect();
        let ended = started.into_iter().map(|thread| thread.join());
        let found = ended.filter_map(|one| one.unwrap_or_else(|panic| resume_unwind(panic)));
        found.min_by_key(|one| one.sequent)
    });
    found.or_else(|| {
        let (end, _) = work.place(count + 1);
        let rest = &printed[end.min(printed.len())..];
        first_in_rows(&[], rest, end, count + 1)
    })
}

/// Where each sequent of the table starts, and the end of the last one.
fn starts(table: &[u8]) -> Vec<usize> {
    let answers = Answers::of(table);
    let mut starts = vec![0];
    for k in 1..=answers.check().unwrap_or(0) {
        let rows = answers.sequent(k).expect("k is in the list").len();
        starts.push(starts[k - 1] + rows * ROW_BYTES);
    }
    starts
}

/// Takes one sequent after another, until there are none or a lower one differs.
fn take_sequents(work: &Work, chosen: &impl Fn(u64) -> bool) -> Option<Difference> {
    loop {
        let k = work.next.fetch_add(1, Ordering::Relaxed);
        if k > work.count || k > work.lowest.load(Ordering::Relaxed) {
            return None;
        }
        let found = if chosen(k) { work.hold(k) } else { None };
        if found.is_some() {
            work.lowest.fetch_min(k, Ordering::Relaxed);
            return found;
        }
    }
}

impl Work<'_> {
    /// Where a sequent starts and the room that it needs. One past the list as this program has it gets none.
    fn place(&self, k: u64) -> (usize, usize) {
        let at = |place: usize| self.starts[place.min(self.starts.len() - 1)];
        let start = at(k as usize - 1);
        (start, at(k as usize) - start)
    }

    /// Makes one sequent in a buffer of just its room.
    fn hold(&self, k: u64) -> Option<Difference> {
        let (start, room) = self.place(k);
        let mut made = vec![UNWRITTEN; room];
        let reply = self.services.write_sequent(self.table, k, &mut made);
        if reply.number != 0 || reply.value as usize * ROW_BYTES != room {
            return Some(Difference {
                byte: start + 1,
                sequent: k,
                fault: Fault::Reply { room, reply },
            });
        }
        let end = self.printed.len().min(start + room);
        first_in_rows(&made, &self.printed[start.min(end)..end], start, k)
    }
}

/// The first byte that differs of rows that start after so many bytes.
fn first_in_rows(made: &[u8], printed: &[u8], start: usize, sequent: u64) -> Option<Difference> {
    if made == printed {
        return None;
    }
    let same = made.iter().zip(printed).take_while(|(one, two)| one == two);
    let byte = same.count();
    let row = byte / ROW_BYTES * ROW_BYTES;
    let around =
        |bytes: &[u8]| bytes[row.min(bytes.len())..bytes.len().min(row + ROW_BYTES)].to_vec();
    Some(Difference {
        byte: start + byte + 1,
        sequent,
        fault: Fault::Rows {
            made: around(made),
            printed: around(printed),
        },
    })
}

impl Held {
    /// What was made and, if it differs, where: a line, or a few.
    pub fn report(&self) -> String {
        let made = match self.check {
            Reply { number: 0, value } => format!("count {value}"),
            Reply { number, value } => format!("refused by {number}, row {value}"),
        };
        match &self.difference {
            None => format!("{made}, {} bytes, same", self.bytes),
            Some(difference) => format!("{made}, {} bytes, {}", self.bytes, difference.report()),
        }
    }
}

impl Difference {
    fn report(&self) -> String {
        let Difference {
            byte,
            sequent,
            fault,
        } = self;
        let row = byte.div_ceil(ROW_BYTES);
        let place = format!("DIFFERENCE at byte {byte} (row {row}), sequent {sequent}");
        match fault {
            Fault::Rows { made, printed } => format!(
                "{place}\nby sequent \"{}\"\nprinted    \"{}\"",
                made.escape_ascii(),
                printed.escape_ascii()
            ),
            Fault::Reply { room, reply } => format!(
                "{place}\nwith {room} bytes of room the library answers {}, value {}",
                reply.number, reply.value
            ),
        }
    }
}
