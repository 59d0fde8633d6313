//! Measures the stack that press and preview use: with the deepest formulas, at the limits, and with generated presses.

use super::batches::groups;
use super::{judged, measure_press};
use crate::presses::Presses;
use crate::states::batch::{batch, batch_of, Batch};
use crate::states::family::deep_family;

/// A line for each group of tables. An error if less is stated than the largest use and a third more.
pub fn report(presses: &dyn Presses) -> Result<String, String> {
    let mut text = "bytes of stack                 presses  press preview\n".to_string();
    let mut largest = 0;
    for (name, batches) in groups(deep_family(), batch_of, batch) {
        let count: usize = batches.iter().map(|batch| batch.cases.len()).sum();
        let [press, preview] = most(presses, &batches);
        text += &format!("{name:<30} {count:>7} {press:>6} {preview:>7}\n");
        largest = largest.max(press).max(preview);
    }
    judged(text, largest)
}

/// The largest use by a press and by a preview. Presses one after another are made on one list.
fn most(presses: &dyn Presses, batches: &[Batch]) -> [usize; 2] {
    let mut most = [0; 2];
    for Batch { table, cases } in batches {
        let mut list = Vec::new();
        for case in cases {
            if let Some(state) = &case.state {
                list = state.clone();
            }
            let used = measure_press(presses, table, case, &mut list);
            most = [most[0].max(used[0]), most[1].max(used[1])];
        }
    }
    most
}
