//! Takes numbers one after another on several threads, until something is found.

use std::fmt::{self, Display, Formatter};
use std::ops::Range;
use std::panic::{catch_unwind, AssertUnwindSafe};
use std::sync::atomic::{AtomicBool, AtomicU64, Ordering};
use std::sync::Mutex;
use std::thread;
use std::time::{Duration, Instant};

/// Time between two lines of progress.
const PAUSE: Duration = Duration::from_secs(10);

/// Which numbers, on how many threads, and what they number: one of them and several, for messages.
pub struct Numbers {
    pub range: Range<u64>,
    pub threads: usize,
    pub word: &'static str,
    pub words: &'static str,
    /// Whether to write a line now and then.
    pub progress: bool,
}

/// A number that is taken, with what it numbers.
#[derive(Clone, Copy, Debug)]
pub struct Place {
    pub word: &'static str,
    pub number: u64,
}

impl Display for Place {
    fn fmt(&self, formatter: &mut Formatter) -> fmt::Result {
        write!(formatter, "{} {}", self.word, self.number)
    }
}

/// Counts that each thread makes by itself.
pub trait Sum: Default + Send {
    fn add(&mut self, other: &Self);
}

/// The numbers still to be taken. All threads stop after a find or a panic.
struct Work {
    next: AtomicU64,
    stop: AtomicBool,
}

/// What all threads have counted, and what was found, if anything was.
pub type Taken<S, F> = Result<(S, Option<F>), String>;

impl Numbers {
    /// Calls `take` with each number and its thread's counts. Of several finds the one with the lowest number is given. The
    /// error names a number at which it panicked.
    pub fn take<S, F>(&self, take: impl Fn(Place, &mut S) -> Option<F> + Sync) -> Taken<S, F>
    where
        S: Sum,
        F: Send,
    {
        let work = Work {
            next: AtomicU64::new(self.range.start),
            stop: AtomicBool::new(false),
        };
        let all = Mutex::new(Vec::new());
        thread::scope(|scope| {
            for _ in 0..self.threads {
                scope.spawn(|| {
                    let taken = self.take_on_thread(&work, &take);
                    let mut all = all.lock().expect("no thread panics while it holds this");
                    all.push(taken);
                });
            }
            if self.progress {
                scope.spawn(|| self.show_progress(&work));
            }
        });
        let (mut counts, mut found) = (S::default(), Vec::new());
        for taken in all.into_inner().expect("all threads have ended") {
            let (counted, one) = taken?;
            counts.add(&counted);
            found.extend(one);
        }
        let first = found.into_iter().min_by_key(|one: &(u64, F)| one.0);
        Ok((counts, first.map(|one| one.1)))
    }

    /// Takes one number after another, until there are none or any thread stops. A find comes with its number.
    fn take_on_thread<S: Default, F>(
        &self,
        work: &Work,
        take: &impl Fn(Place, &mut S) -> Option<F>,
    ) -> Taken<S, (u64, F)> {
        let mut counts = S::default();
        loop {
            let number = work.next.fetch_add(1, Ordering::Relaxed);
            if number >= self.range.end || work.stop.load(Ordering::Relaxed) {
                return Ok((counts, None));
            }
            let word = self.word;
            let at = Place { word, number };
            // What a panic leaves half done in the counts isn't used.
            match catch_unwind(AssertUnwindSafe(|| take(at, &mut counts))) {
                Ok(None) => {}
                Ok(Some(found)) => {
                    work.stop.store(true, Ordering::Relaxed);
                    return Ok((counts, Some((number, found))));
                }
                Err(_) => {
                    work.stop.store(true, Ordering::Relaxed);
                    return Err(format!("a panic at {at} ends the comparison"));
                }
            }
        }
    }

    /// Writes a line now and then, until all numbers are taken or the threads stop.
    fn show_progress(&self, work: &Work) {
        let Range { start: first, end } = self.range;
        let start = Instant::now();
        let mut shown = start;
        loop {
            thread::sleep(Duration::from_millis(100));
            let next = work.next.load(Ordering::Relaxed).min(end);
            if next == end || work.stop.load(Ordering::Relaxed) {
                return;
            }
            if shown.elapsed() >= PAUSE {
                shown = Instant::now();
                let (done, count, seconds) = (next - first, end - first, start.elapsed().as_secs());
                eprintln!("{done} of {count} {}, {seconds} s", self.words);
            }
        }
    }
}
