//! The stack that a call of the services needs: threads with exactly as much as is stated, and what a call uses.

pub mod batches;
pub mod press;
pub mod replay;
pub mod report;
pub mod tables;

use crate::against::{Call, Reply, Services};
use crate::press::Record;
use crate::presses::Presses;
use crate::replays::Replays;
use crate::states::batch::Case;
use std::hint::black_box;
use std::panic::resume_unwind;
use std::thread::{scope, Builder};

/// Bytes of stack for a thread that calls the library, as include/sifthorma.h states them: the largest use measured
/// (`compare stack`) and a third more, up to a multiple of 64 KB, which is whole pages on every system.
pub const STACK: usize = 6 * 64 * 1024;

/// The text with the largest use of all. An error if less is stated than that and a third more.
fn judged(text: String, largest: usize) -> Result<String, String> {
    let text = text + &format!("largest of all {largest}, stated {STACK}\n");
    if largest + largest / 3 > STACK {
        return Err(text + "less is stated than the largest and a third more");
    }
    Ok(text)
}

/// Makes the call on a thread with so many bytes of stack. The C library may reuse the stack of an ended thread that is up to
/// four times as large; all other threads here have more than that.
pub fn on_thread<T: Send>(bytes: usize, call: impl FnOnce() -> T + Send) -> T {
    scope(|scope| {
        let thread = Builder::new().stack_size(bytes).spawn_scoped(scope, call);
        let reply = thread.expect("a thread starts").join();
        reply.unwrap_or_else(|panic| resume_unwind(panic))
    })
}

/// The reply to a call, and how many bytes of stack it used.
pub fn measure(services: &dyn Services, table: &[u8], call: Call) -> (Reply, usize) {
    let mut out = vec![0; call.room()];
    on_thread(AREA + REST, || {
        used(|| call.make(services, table, &mut out))
    })
}

/// The reply to a replay, and how many bytes of stack it used.
pub fn measure_replay(replays: &dyn Replays, table: &[u8], log: &[u8]) -> (Reply, usize) {
    on_thread(AREA + REST, || used(|| replays.replay(table, log)))
}

/// How many bytes of stack a press used, and before it a preview of the same step.
pub fn measure_press(
    presses: &dyn Presses,
    table: &[u8],
    case: &Case,
    list: &mut [Record],
) -> [usize; 2] {
    let Case { step, second, .. } = case;
    let mut second = second.clone();
    on_thread(AREA + REST, || {
        let preview = used(|| presses.preview(table, step, list, &mut second)).1;
        let press = used(|| presses.press(table, step, list)).1;
        [press, preview]
    })
}

/// Bytes of stack that are filled before a call; one that changes them all isn't measured.
const AREA: usize = 1 << 20;

/// Bytes between a frame and those filled below it, for the code that fills and reads.
const GAP: usize = 4096;

/// More than enough for all that a thread has on its stack before the call.
const REST: usize = 1 << 20;

/// What the filled words hold.
const FILLED: u64 = 0x9E3A_51C7_D264_0B8F;

/// Makes the call and gives how many bytes below this frame it has changed.
#[inline(never)]
fn used<T>(call: impl FnOnce() -> T) -> (T, usize) {
    let here = black_box(0u64);
    let start = fill();
    let reply = call();
    let lowest = lowest_changed(start);
    assert!(lowest > start, "the call uses more than {AREA} bytes");
    (reply, &raw const here as usize - lowest)
}

/// Fills the stack below this frame and gives the lowest address filled.
#[inline(never)]
fn fill() -> usize {
    let here = black_box(0u64);
    let end = (&raw const here as usize - GAP) & !7;
    let mut at = end - AREA;
    while at < end {
        // The thread's own stack, lower than any frame in use.
        unsafe { (at as *mut u64).write_volatile(FILLED) };
        at += 8;
    }
    end - AREA
}

/// The lowest address that no longer holds what was filled in.
#[inline(never)]
fn lowest_changed(start: usize) -> usize {
    let mut at = start;
    // The same words as above.
    while at < start + AREA && unsafe { (at as *const u64).read_volatile() } == FILLED {
        at += 8;
    }
    at
}
