//! Tables made from a seed: accepted ones of every shape, and damaged ones.

pub mod damage;
pub mod draft;
pub mod near;
pub mod new_events;
pub mod plan;
pub mod random;
pub mod sections;
pub mod shared;
pub mod told_apart;
pub mod tree;

use crate::checks::{accept, ENTRY, FRAME, MISSING, ROOM, SEQUENT};
use crate::rows::{bytes_of, ROW_BYTES};
use crate::sequents::{sequents, spell_out};
use crate::services::check;
use damage::{aimed, wild};
use draft::Draft;
use near::near_miss;
use plan::{extreme, Plan, EXTREMES};
use random::Random;
use sections::{arranged, sectioned};
use told_apart::told_apart;

/// A table and the calls to make with it.
#[derive(Clone, Debug)]
pub struct Case {
    pub table: Vec<u8>,
    pub k: usize,
    pub j: usize,
    /// The length of the buffer for write sequent k.
    pub sequent_room: usize,
    /// The length of the buffer for spell entry j of sequent k.
    pub entry_room: usize,
}

/// Fifty seeds in a row meet each refusal at least once.
pub const ROUND: u64 = 50;

/// The case of a seed: 15 are aimed at one refusal each, 4 damaged anyhow, 8 near a refusal, 23 accepted.
pub fn case(seed: u64) -> Case {
    let mut random = Random::new(seed);
    let table = seeded(seed, &mut random);
    let refusal = match seed % ROUND {
        slot @ 12..=14 => slot as i32 + 1,
        _ => 0,
    };
    called(table, refusal, &mut random)
}

/// The table of a seed's case alone.
pub fn table(seed: u64) -> Vec<u8> {
    seeded(seed, &mut Random::new(seed))
}

fn seeded(seed: u64, random: &mut Random) -> Vec<u8> {
    let slot = (seed % ROUND) as i32;
    match slot {
        0..=11 => refused(slot + FRAME, random),
        12..=14 => with_sequents(random),
        15..=18 => wild(&accepted_draft(random), random),
        19..=26 => near_miss(random),
        _ => accepted(random),
    }
}

/// A draft of an accepted table: tiny to large, one in nine at all limits or some, one in three by their sections, one in six
/// by what request 4 tells apart.
pub fn accepted_draft(random: &mut Random) -> Draft {
    match random.below(18) {
        0 | 1 => {
            let number = random.below(EXTREMES);
            extreme(number, random)
        }
        2 => Plan::any(random, 1).draft(random),
        3 => Plan::any(random, 2).draft(random),
        4 | 5 => Plan::any(random, 6).draft(random),
        6 => Plan::any(random, 16).draft(random),
        7 => Plan::any(random, 512).draft(random),
        8 => arranged(random),
        9..=11 => told_apart(random),
        _ => sectioned(random),
    }
}

fn accepted(random: &mut Random) -> Vec<u8> {
    let draft = accepted_draft(random);
    bytes_of(&draft.rows(random))
}

/// An accepted table with at least one sequent.
fn with_sequents(random: &mut Random) -> Vec<u8> {
    loop {
        let table = accepted(random);
        if check(&table) != Ok(0) {
            return table;
        }
    }
}

/// A table with this refusal: damage is tried until it has it.
fn refused(number: i32, random: &mut Random) -> Vec<u8> {
    for _ in 0..20_000 {
        let table = aimed(number, &accepted_draft(random), random);
        if accept(&table).is_err_and(|refusal| refusal.number == number) {
            return table;
        }
    }
    assert_eq!(number, MISSING, "no table found for a refusal");
    Vec::new()
}

/// Chooses k, j and the buffers; `refusal` is 13, 14, 15 or 0 for any of them, mostly none.
fn called(table: Vec<u8>, refusal: i32, random: &mut Random) -> Case {
    let Ok(read) = accept(&table) else {
        return Case {
            table,
            k: random.below(9),
            j: random.below(9),
            sequent_room: random.below(500),
            entry_room: random.below(500),
        };
    };
    let list = sequents(&read);
    let is = |wanted: i32, random: &mut Random| refusal == wanted || random.one_in(20);
    let mut k = random.between(1, list.len().max(1));
    let entries = list.get(k - 1).map(|one| one.entries()).unwrap_or_default();
    let mut j = random.between(1, entries.len().max(1));
    let spelled = entries.get(j - 1).map(|&one| spell_out(&read, one));
    // Rows 80 and 84 come before the entries.
    let mut sequent_room = (entries.len() + 2) * ROW_BYTES + random.pick(&[0, 0, 1, 37, 38, 99]);
    let rows = spelled.unwrap_or_default().len();
    let mut entry_room = rows * ROW_BYTES + random.pick(&[0, 0, 1, 37, 38, 99]);
    if is(ROOM, random) {
        sequent_room = short(entries.len() + 2, random);
        entry_room = short(rows, random);
    }
    if is(ENTRY, random) {
        j = random.pick(&[0, entries.len() + 1, entries.len() + 2, usize::MAX]);
    }
    if refusal != ENTRY && refusal != ROOM && is(SEQUENT, random) {
        k = random.pick(&[0, list.len() + 1, list.len() + 2, usize::MAX]);
    }
    Case {
        table,
        k,
        j,
        sequent_room,
        entry_room,
    }
}

/// A length too short for so many rows.
fn short(rows: usize, random: &mut Random) -> usize {
    let size = rows * ROW_BYTES;
    match random.below(3) {
        0 => size.saturating_sub(1),
        1 => size.saturating_sub(ROW_BYTES),
        _ => random.below(size),
    }
}
