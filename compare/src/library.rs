//! The proved library behind its C header. Built only where build.rs has found it.

use crate::against::{Reply, Services};
use crate::press::Record;
use crate::presses::Presses;
use crate::replays::Replays;
use crate::stack::STACK;

extern "C" {
    fn sifthorma_check(table: *const u8, table_length: usize, value: *mut u64) -> u64;
    fn sifthorma_write_sequent(
        table: *const u8,
        table_length: usize,
        k: u64,
        out: *mut u8,
        out_length: usize,
        value: *mut u64,
    ) -> u64;
    fn sifthorma_spell_entry(
        table: *const u8,
        table_length: usize,
        k: u64,
        j: u64,
        out: *mut u8,
        out_length: usize,
        value: *mut u64,
    ) -> u64;
    fn sifthorma_replay(
        table: *const u8,
        table_length: usize,
        run: *const u8,
        run_length: usize,
        value: *mut u64,
    ) -> u64;
    fn sifthorma_press(
        table: *const u8,
        table_length: usize,
        step: *const u8,
        step_length: usize,
        state: *mut Record,
        state_length: usize,
        value: *mut u64,
    ) -> u64;
    fn sifthorma_preview(
        table: *const u8,
        table_length: usize,
        step: *const u8,
        step_length: usize,
        first: *const Record,
        first_length: usize,
        second: *mut Record,
        second_length: usize,
        value: *mut u64,
    ) -> u64;
}

/// No call answers this; it stands in `value` before each.
const UNSET: u64 = 0xA5A5_A5A5_A5A5_A5A5;

pub struct Library;

// The pointers below come from slices and live references, as the header asks.
impl Services for Library {
    fn stack(&self) -> usize {
        STACK
    }

    fn check(&self, table: &[u8]) -> Reply {
        let mut value = UNSET;
        let number = unsafe { sifthorma_check(table.as_ptr(), table.len(), &mut value) };
        Reply { number, value }
    }

    fn write_sequent(&self, table: &[u8], k: u64, out: &mut [u8]) -> Reply {
        let mut value = UNSET;
        let (start, length) = (out.as_mut_ptr(), out.len());
        let number = unsafe {
            sifthorma_write_sequent(table.as_ptr(), table.len(), k, start, length, &mut value)
        };
        Reply { number, value }
    }

    fn spell_entry(&self, table: &[u8], k: u64, j: u64, out: &mut [u8]) -> Reply {
        let mut value = UNSET;
        let (start, length) = (out.as_mut_ptr(), out.len());
        let number = unsafe {
            sifthorma_spell_entry(table.as_ptr(), table.len(), k, j, start, length, &mut value)
        };
        Reply { number, value }
    }
}

impl Replays for Library {
    fn stack(&self) -> usize {
        STACK
    }

    fn replay(&self, table: &[u8], run: &[u8]) -> Reply {
        let mut value = UNSET;
        let number = unsafe {
            sifthorma_replay(
                table.as_ptr(),
                table.len(),
                run.as_ptr(),
                run.len(),
                &mut value,
            )
        };
        Reply { number, value }
    }
}

impl Presses for Library {
    fn stack(&self) -> usize {
        STACK
    }

    fn press(&self, table: &[u8], step: &[u8], state: &mut [Record]) -> Reply {
        let mut value = UNSET;
        let number = unsafe {
            sifthorma_press(
                table.as_ptr(),
                table.len(),
                step.as_ptr(),
                step.len(),
                state.as_mut_ptr(),
                state.len(),
                &mut value,
            )
        };
        Reply { number, value }
    }

    fn preview(
        &self,
        table: &[u8],
        step: &[u8],
        first: &mut [Record],
        second: &mut [Record],
    ) -> Reply {
        let mut value = UNSET;
        // The first list too is lent as one that can change, so that a change of it can be seen.
        let number = unsafe {
            sifthorma_preview(
                table.as_ptr(),
                table.len(),
                step.as_ptr(),
                step.len(),
                first.as_mut_ptr(),
                first.len(),
                second.as_mut_ptr(),
                second.len(),
                &mut value,
            )
        };
        Reply { number, value }
    }
}
