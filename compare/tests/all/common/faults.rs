//! What the comparisons of replays and of presses must find, and how small it is shown.

use compare::batches::{compare, Batched};
use compare::campaign::Report;
use compare::numbers::Taken;
use compare::rows::ROW_BYTES;
use std::fmt::Debug;

/// So many calls are compared in the gate.
pub const GATE: u64 = 20_000;

/// What was counted, where nothing differs.
pub fn assert_same<S, F: Report>(compared: Taken<S, F>) -> S {
    let (summary, found) = compared.expect("no panic");
    let report = found.map(|one| one.report());
    assert!(report.is_none(), "{}", report.unwrap_or_default());
    summary
}

/// Each mistake is found in some batch.
pub fn assert_all_found<M: Copy + Debug, N: Debug>(
    mistakes: impl IntoIterator<Item = M>,
    first_batch: impl Fn(M) -> Option<N>,
) {
    let mut missed = Vec::new();
    for mistake in mistakes {
        match first_batch(mistake) {
            Some(number) => println!("{mistake:?}: batch {number:?}"),
            None => missed.push(mistake),
        }
    }
    assert!(missed.is_empty(), "{missed:?}");
}

/// The difference within the gate, on the smallest table and call found.
pub fn found<C: Batched + ?Sized>(calls: &C) -> C::Found {
    let (_, found) = compare(calls, 0, GATE, 1, false).expect("no panic");
    found.expect("found")
}

/// These bytes of what is shown have at most so many rows.
pub fn assert_small(found: &impl Report, bytes: &[u8], rows: usize) {
    assert!(bytes.len() <= rows * ROW_BYTES, "{}", found.report());
}

/// The report of a difference at a batch, with these words.
pub fn assert_shown(found: &impl Report, words: &[&str]) {
    let report = found.report();
    assert!(report.starts_with("DIFFERENCE at batch "), "{report}");
    for word in words {
        assert!(report.contains(word), "{report}");
    }
}
