//! Compares an implementation of the services with this one: replies, and every byte of the buffers.

use crate::checks::{Refusal, ROOM};
use crate::generate::random::Random;
use crate::rows::{bytes_of, Row, ROW_BYTES};
use crate::sequents::WD;
use crate::services::Answers;
use crate::stack::on_thread;
use std::fmt::{self, Display, Formatter};
use std::mem::take;

/// What a service answers: 0 or the refusal's number, and the count or the row.
#[derive(Clone, Copy, Debug, PartialEq, Eq)]
pub struct Reply {
    pub number: u64,
    pub value: u64,
}

impl Display for Reply {
    fn fmt(&self, formatter: &mut Formatter) -> fmt::Result {
        write!(formatter, "{}, value {}", self.number, self.value)
    }
}

/// The services, as the C header has them.
pub trait Services: Sync {
    /// Bytes of stack for a thread that calls.
    fn stack(&self) -> usize;
    fn check(&self, table: &[u8]) -> Reply;
    fn write_sequent(&self, table: &[u8], k: u64, out: &mut [u8]) -> Reply;
    fn spell_entry(&self, table: &[u8], k: u64, j: u64, out: &mut [u8]) -> Reply;
}

/// A call with a table; `room` is the length of the buffer.
#[derive(Clone, Copy, Debug, PartialEq, Eq)]
pub enum Call {
    Check,
    Write { k: u64, room: usize },
    Spell { k: u64, j: u64, room: usize },
}

impl Call {
    /// The length of the buffer.
    pub fn room(self) -> usize {
        match self {
            Call::Check => 0,
            Call::Write { room, .. } | Call::Spell { room, .. } => room,
        }
    }

    pub fn make(self, services: &dyn Services, table: &[u8], out: &mut [u8]) -> Reply {
        match self {
            Call::Check => services.check(table),
            Call::Write { k, .. } => services.write_sequent(table, k, out),
            Call::Spell { k, j, .. } => services.spell_entry(table, k, j, out),
        }
    }
}

/// A reply, and the buffer with a margin on either side.
#[derive(Clone, Debug, PartialEq, Eq)]
pub struct Outcome {
    pub reply: Reply,
    pub buffer: Vec<u8>,
}

/// A call that was answered in two ways, and how many sequents and entries come after those called for.
#[derive(Clone, Debug)]
pub struct Difference {
    pub call: Call,
    pub after: (u64, u64),
    pub expected: Outcome,
    pub got: Outcome,
}

/// Bytes on either side of a buffer that no call may change.
pub const MARGIN: usize = 64;

/// How many calls to make.
#[derive(Clone, Copy, Debug, PartialEq, Eq)]
pub enum Effort {
    /// Three calls of those that are chosen, and check.
    Few,
    /// A buffer of one length for most calls, of each length for some.
    Some,
    /// Buffers of each length for every call.
    All,
    /// The same for every sequent and entry of a list that isn't long.
    Every,
}

/// Calls that ask for the same rows, with buffers of several lengths.
struct Planned {
    calls: Vec<Call>,
    rows: Result<Vec<Row>, Refusal>,
}

/// The calls made with a table, and how they were answered. What they must answer is worked out before, as that takes
/// more stack than a thread that calls may have. The list and row 84 are made the plain way here, from spelled rows: what is
/// timed uses sets of identifiers, and a test asks that both agree.
pub struct Comparison<'a> {
    services: &'a dyn Services,
    table: &'a [u8],
    answers: Answers,
    planned: Vec<Planned>,
    pub calls: u64,
    /// Calls answered by refusals 13, 14 and 15.
    pub refused: [u64; 3],
    pub difference: Option<Difference>,
}

impl<'a> Comparison<'a> {
    pub fn new(services: &'a dyn Services, table: &'a [u8]) -> Comparison<'a> {
        Comparison {
            services,
            table,
            answers: Answers::plain(table),
            planned: vec![],
            calls: 0,
            refused: [0; 3],
            difference: None,
        }
    }

    /// What check answers here.
    pub fn checked(&self) -> Result<usize, Refusal> {
        self.answers.check()
    }

    /// Makes the calls, up to the first difference.
    pub fn run(mut self, effort: Effort, random: &mut Random) -> Self {
        let count = self.count();
        let mut written = chosen(count, effort, random);
        let mut spelled = spelled(count, effort, random);
        if effort == Effort::Few {
            written = vec![random.pick(&written)];
            spelled = vec![random.pick(&spelled), random.pick(&spelled)];
        }
        for k in written {
            self.plan_write(k, effort, random);
        }
        let all_at = random.between(1, 3);
        for (n, k) in spelled.into_iter().enumerate() {
            let mut places = chosen(self.entries(k), effort, random);
            if effort == Effort::Few || effort == Effort::Some && n != all_at {
                places = vec![random.pick(&places)];
            }
            for j in places {
                self.plan_spell(k, j, effort, random);
            }
        }
        self.plan_defined(effort, random);
        self.make_calls()
    }

    /// Makes the calls most like one that differed: its numbers, counted from either end of their lists.
    pub fn run_near(mut self, difference: &Difference, random: &mut Random) -> Self {
        let (k, j) = match difference.call {
            Call::Check => return self.make_calls(),
            Call::Write { k, .. } => (k, None),
            Call::Spell { k, j, .. } => (k, Some(j)),
        };
        let from_end = self.count().wrapping_sub(difference.after.0);
        let around = (0..5).flat_map(|n| [k, from_end].map(|k| k.wrapping_add(n).wrapping_sub(2)));
        for k in around {
            let Some(j) = j else {
                self.plan_write(k, Effort::All, random);
                continue;
            };
            for j in [j, self.entries(k).wrapping_sub(difference.after.1)] {
                self.plan_spell(k, j, Effort::All, random);
            }
        }
        self.make_calls()
    }

    fn count(&self) -> u64 {
        self.answers.check().unwrap_or(0) as u64
    }

    /// The number of entries of sequent k, 0 if there is none.
    fn entries(&self, k: u64) -> u64 {
        self.answers
            .entries(k as usize)
            .map_or(0, |entries| entries as u64)
    }

    /// One sequent of WD and its goal, since long lists have few.
    fn plan_defined(&mut self, effort: Effort, random: &mut Random) {
        if let Some(k) = random.maybe(&self.answers.of_kind(WD)) {
            self.plan_write(k, effort, random);
            self.plan_spell(k, self.entries(k), effort, random);
        }
    }

    fn plan_write(&mut self, k: u64, effort: Effort, random: &mut Random) {
        let rows = self.answers.sequent(k as usize);
        let rooms = rooms(&rows, effort, random).into_iter();
        let calls = rooms.map(|room| Call::Write { k, room }).collect();
        self.planned.push(Planned { calls, rows });
    }

    fn plan_spell(&mut self, k: u64, j: u64, effort: Effort, random: &mut Random) {
        let rows = self.answers.entry(k as usize, j as usize);
        let rooms = rooms(&rows, effort, random).into_iter();
        let calls = rooms.map(|room| Call::Spell { k, j, room }).collect();
        self.planned.push(Planned { calls, rows });
    }

    /// Check and the planned calls, on a thread with the stack that is stated and no more.
    fn make_calls(mut self) -> Self {
        let planned = take(&mut self.planned);
        on_thread(self.services.stack(), || {
            self.compare_check();
            for Planned { calls, rows } in &planned {
                for &call in calls {
                    self.compare_buffer(call, rows);
                }
            }
        });
        self
    }

    fn compare_check(&mut self) {
        let expected = reply_of(self.answers.check());
        let reply = self.services.check(self.table);
        self.settle(Call::Check, expected, reply, vec![], vec![]);
    }

    /// One call with a filled buffer.
    fn compare_buffer(&mut self, call: Call, rows: &Result<Vec<Row>, Refusal>) {
        if self.difference.is_some() {
            return;
        }
        let within = MARGIN..MARGIN + call.room();
        let mut buffer: Vec<u8> = (0..within.end + MARGIN).map(filler).collect();
        let mut wanted = buffer.clone();
        let expected = write(rows, &mut wanted[within.clone()]);
        let reply = call.make(self.services, self.table, &mut buffer[within]);
        self.settle(call, expected, reply, wanted, buffer);
    }

    fn after(&self, call: Call) -> (u64, u64) {
        let count = self.count();
        match call {
            Call::Check => (0, 0),
            Call::Write { k, .. } => (count.wrapping_sub(k), 0),
            Call::Spell { k, j, .. } => (count.wrapping_sub(k), self.entries(k).wrapping_sub(j)),
        }
    }

    /// Counts the call and keeps it if its outcomes differ.
    fn settle(
        &mut self,
        call: Call,
        expected: Reply,
        got: Reply,
        wanted: Vec<u8>,
        buffer: Vec<u8>,
    ) {
        self.calls += 1;
        if (13..=15).contains(&expected.number) {
            self.refused[expected.number as usize - 13] += 1;
        }
        if self.difference.is_none() && (expected != got || wanted != buffer) {
            self.difference = Some(Difference {
                call,
                after: self.after(call),
                expected: Outcome {
                    reply: expected,
                    buffer: wanted,
                },
                got: Outcome { reply: got, buffer },
            });
        }
    }
}

/// A byte for each place of a buffer, so that moved bytes show too.
fn filler(place: usize) -> u8 {
    (place.wrapping_mul(167) >> 3) as u8 | 0x80
}

fn reply_of(answer: Result<usize, Refusal>) -> Reply {
    match answer {
        Ok(value) => Reply {
            number: 0,
            value: value as u64,
        },
        Err(refusal) => Reply {
            number: refusal.number as u64,
            value: refusal.row as u64,
        },
    }
}

/// Writes the rows over the start of the buffer, or nothing if there is no room.
fn write(rows: &Result<Vec<Row>, Refusal>, out: &mut [u8]) -> Reply {
    let answer = match rows {
        Err(refusal) => Err(*refusal),
        Ok(rows) if out.len() < rows.len() * ROW_BYTES => Err(Refusal {
            number: ROOM,
            row: 0,
        }),
        Ok(rows) => {
            out[..rows.len() * ROW_BYTES].copy_from_slice(&bytes_of(rows));
            Ok(rows.len())
        }
    };
    reply_of(answer)
}

/// Numbers to ask for in a list of so many: those at its ends, those just outside, and some between.
fn chosen(count: u64, effort: Effort, random: &mut Random) -> Vec<u64> {
    let mut numbers = vec![0, 1, count, count + 1, u64::MAX];
    match effort {
        Effort::Few | Effort::Some => numbers.push(1 + random.below(count as usize) as u64),
        Effort::Every if count <= 64 => numbers.extend(1..=count),
        _ => numbers.extend((0..12).map(|_| 1 + random.below(count as usize) as u64)),
    }
    numbers.sort();
    numbers.dedup();
    numbers
}

/// Sequents to spell entries of: one outside the list, its ends and one between, or all that are chosen.
fn spelled(count: u64, effort: Effort, random: &mut Random) -> Vec<u64> {
    if effort == Effort::All || effort == Effort::Every {
        return chosen(count, effort, random);
    }
    let outside = random.pick(&[0, count + 1, u64::MAX]);
    let between = 1 + random.below(count as usize) as u64;
    let mut numbers = vec![outside, 1, between, count];
    numbers.dedup();
    numbers
}

/// Lengths of the buffer: exact, one short, none, larger; for a refusal none and some.
fn rooms(rows: &Result<Vec<Row>, Refusal>, effort: Effort, random: &mut Random) -> Vec<usize> {
    let more = random.between(1, 99);
    let all = match rows {
        Err(_) => vec![0, more],
        Ok(rows) => {
            let exact = rows.len() * ROW_BYTES;
            vec![exact, exact - 1, 0, exact + more]
        }
    };
    match effort {
        Effort::Few => vec![random.pick(&all)],
        Effort::Some if !random.one_in(8) => vec![random.pick(&all)],
        _ => all,
    }
}
