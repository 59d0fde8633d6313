//! Compares an implementation with this one over many batches, each a table with calls: generated ones, or a list.

use crate::numbers::{Numbers, Place, Sum, Taken};
use std::collections::BTreeMap;

/// Calls of one sort, which are compared batch by batch.
pub trait Batched: Sync {
    type Batch: Clone + Sync;
    type Summary: Sum;
    type Found: Send;
    /// The calls of a generated batch.
    const SIZE: usize;
    /// The generated batch of this number, with so many of its calls at most.
    fn batch(number: u64, most: usize) -> Self::Batch;
    /// Counts what the batch must give, and finds its first difference.
    fn take(
        &self,
        at: Place,
        batch: Self::Batch,
        summary: &mut Self::Summary,
    ) -> Option<Self::Found>;
    /// The difference on the smallest table and call found.
    fn smaller(&self, found: Self::Found) -> Self::Found;
}

/// What was counted, and a difference if there is one.
pub type Compared<C> = Taken<<C as Batched>::Summary, <C as Batched>::Found>;

/// Compares so many generated calls, from the batch `first` on, and stops at a difference, made smaller.
pub fn compare<C: Batched + ?Sized>(
    calls: &C,
    first: u64,
    count: u64,
    threads: usize,
    progress: bool,
) -> Compared<C> {
    let size = C::SIZE as u64;
    let numbers = Numbers {
        range: first..first + count.div_ceil(size),
        threads,
        word: "batch",
        words: "batches",
        progress,
    };
    compare_batches(calls, &numbers, |number| {
        let left = count - (number - first) * size;
        C::batch(number, left as usize)
    })
}

/// Compares all batches of a list, as above.
pub fn compare_list<C: Batched + ?Sized>(
    calls: &C,
    list: &[C::Batch],
    threads: usize,
) -> Compared<C> {
    let numbers = Numbers {
        range: 0..list.len() as u64,
        threads,
        word: "table",
        words: "tables",
        progress: false,
    };
    compare_batches(calls, &numbers, |number| list[number as usize].clone())
}

fn compare_batches<C: Batched + ?Sized>(
    calls: &C,
    numbers: &Numbers,
    batch: impl Fn(u64) -> C::Batch + Sync,
) -> Compared<C> {
    let taken = numbers.take(|at, summary| calls.take(at, batch(at.number), summary));
    let (summary, found) = taken?;
    Ok((summary, found.map(|found| calls.smaller(found))))
}

/// How many calls have each number of a reply, 0 for those that aren't refused.
#[derive(Clone, Debug, Default)]
pub struct Replies(pub BTreeMap<u64, u64>);

impl Replies {
    pub fn count(&mut self, number: u64) {
        *self.0.entry(number).or_default() += 1;
    }

    pub fn add(&mut self, other: &Replies) {
        for (&number, count) in &other.0 {
            *self.0.entry(number).or_default() += count;
        }
    }

    /// Two lines: how many aren't refused, after a word for them, and the others by number.
    pub fn report(&self, word: &str) -> String {
        let done = self.0.get(&0).unwrap_or(&0);
        let mut text = format!("{word} {done}\nrefused");
        for (number, count) in self.0.iter().filter(|one| *one.0 > 0) {
            text += &format!(" {number}:{count}");
        }
        text + "\n"
    }
}
