//! The proved library behind its C header: check, write sequent, spell entry, replay, press, preview.

use crate::rows::{read_rows, Row, ROW_BYTES};

extern "C" {
    fn sifthorma_check(table: *const u8, table_length: usize, value: *mut u64) -> u64;
    fn sifthorma_write_sequent(
        table: *const u8,
        table_length: usize,
        k: u64,
        out: *mut u8,
        out_length: usize,
        value: *mut u64,
    ) -> u64;
    fn sifthorma_spell_entry(
        table: *const u8,
        table_length: usize,
        k: u64,
        j: u64,
        out: *mut u8,
        out_length: usize,
        value: *mut u64,
    ) -> u64;
    fn sifthorma_replay(
        table: *const u8,
        table_length: usize,
        run: *const u8,
        run_length: usize,
        value: *mut u64,
    ) -> u64;
    fn sifthorma_press(
        table: *const u8,
        table_length: usize,
        step: *const u8,
        step_length: usize,
        state: *mut Record,
        state_length: usize,
        value: *mut u64,
    ) -> u64;
    fn sifthorma_preview(
        table: *const u8,
        table_length: usize,
        step: *const u8,
        step_length: usize,
        first: *const Record,
        first_length: usize,
        second: *mut Record,
        second_length: usize,
        value: *mut u64,
    ) -> u64;
}

/// The record of one identifier, laid out as the header has it: its value (booleans 0 or 1) and its type.
#[repr(C)]
#[derive(Clone, Copy, Debug, PartialEq, Eq)]
pub struct Record {
    pub value: i64,
    pub type_number: u64,
}

/// A refusal: its number, and the row that is named or 0.
#[derive(Clone, Copy, Debug, PartialEq, Eq)]
pub struct Refusal {
    pub number: u64,
    pub row: usize,
}

/// Refusal 15: the buffer is shorter than the rows.
const ROOM: u64 = 15;

/// Rows of a first buffer. Most sequents and entries are shorter; the longer ones get a larger one.
const ROOM_ROWS: usize = 256;

/// The count of the table's sequents.
pub fn check(table: &[u8]) -> Result<u64, Refusal> {
    let mut value = 0;
    let number = unsafe { sifthorma_check(table.as_ptr(), table.len(), &mut value) };
    replied(number, value)
}

/// The number of steps after the initialisation, if the log is a run. The row of refusals 16 to 18 is the log's.
pub fn replay(table: &[u8], log: &[u8]) -> Result<u64, Refusal> {
    let mut value = 0;
    let number = unsafe {
        let (start, length) = (log.as_ptr(), log.len());
        sifthorma_replay(table.as_ptr(), table.len(), start, length, &mut value)
    };
    replied(number, value)
}

/// Performs one step on the state, or changes nothing of it.
pub fn press(table: &[u8], step: &[u8], state: &mut [Record]) -> Result<(), Refusal> {
    let mut value = 0;
    let number = unsafe {
        sifthorma_press(
            table.as_ptr(),
            table.len(),
            step.as_ptr(),
            step.len(),
            state.as_mut_ptr(),
            state.len(),
            &mut value,
        )
    };
    replied(number, value).map(|_| ())
}

/// What pressing the step would make of this state.
pub fn preview(table: &[u8], step: &[u8], state: &[Record]) -> Result<Vec<Record>, Refusal> {
    let mut value = 0;
    let unwritten = Record {
        value: 0,
        type_number: 0,
    };
    let mut after = vec![unwritten; state.len()];
    let number = unsafe {
        sifthorma_preview(
            table.as_ptr(),
            table.len(),
            step.as_ptr(),
            step.len(),
            state.as_ptr(),
            state.len(),
            after.as_mut_ptr(),
            after.len(),
            &mut value,
        )
    };
    replied(number, value).map(|_| after)
}

/// The bytes of sequent k: rows 80, 84, 81, 82.
pub fn sequent(table: &[u8], k: u64) -> Result<Vec<u8>, Refusal> {
    written(|out, value| unsafe {
        let (start, length) = (out.as_mut_ptr(), out.len());
        sifthorma_write_sequent(table.as_ptr(), table.len(), k, start, length, value)
    })
}

/// The rows 83 of entry j of sequent k.
pub fn entry(table: &[u8], k: u64, j: u64) -> Result<Vec<Row>, Refusal> {
    let bytes = written(|out, value| unsafe {
        let (start, length) = (out.as_mut_ptr(), out.len());
        sifthorma_spell_entry(table.as_ptr(), table.len(), k, j, start, length, value)
    })?;
    Ok(read_rows(&bytes).expect("the library writes rows"))
}

/// What a call writes, in a buffer that grows until there is room.
fn written(call: impl Fn(&mut [u8], &mut u64) -> u64) -> Result<Vec<u8>, Refusal> {
    let mut out = vec![0; ROOM_ROWS * ROW_BYTES];
    loop {
        let mut value = 0;
        let number = call(&mut out, &mut value);
        if number != ROOM {
            let rows = replied(number, value)? as usize;
            out.truncate(rows * ROW_BYTES);
            return Ok(out);
        }
        out = vec![0; out.len() * 4];
    }
}

fn replied(number: u64, value: u64) -> Result<u64, Refusal> {
    match number {
        0 => Ok(value),
        _ => Err(Refusal {
            number,
            row: value as usize,
        }),
    }
}
