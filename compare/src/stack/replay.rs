//! Measures the stack that replay uses: with the deepest formulas, at the limits, and with generated logs.

use super::batches::groups;
use super::{judged, measure_replay};
use crate::replays::Replays;
use crate::runs::batch::{batch, batch_of, Batch};
use crate::runs::family::deep_family;

/// A line for each group of tables. An error if less is stated than the largest use and a third more.
pub fn report(replays: &dyn Replays) -> Result<String, String> {
    let mut text = "bytes of stack for replay         logs   most\n".to_string();
    let mut largest = 0;
    for (name, batches) in groups(deep_family(), batch_of, batch) {
        let logs: usize = batches.iter().map(|batch| batch.logs.len()).sum();
        let most = batches.iter().map(|batch| most(replays, batch)).max();
        let most = most.unwrap_or(0);
        text += &format!("{name:<30} {logs:>7} {most:>6}\n");
        largest = largest.max(most);
    }
    judged(text, largest)
}

/// The largest use by a log of the batch.
fn most(replays: &dyn Replays, Batch { table, logs }: &Batch) -> usize {
    let uses = logs.iter().map(|log| measure_replay(replays, table, log).1);
    uses.max().unwrap_or(0)
}
