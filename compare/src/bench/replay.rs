//! Times replays of long runs of models, a quarter, a half and the whole of each.

use super::{time, Runs};
use crate::checks::accept;
use crate::replay::replay;
use crate::replays::Replays;
use crate::rows::{bytes_of, layout, ROW_BYTES};
use crate::runs::simulate::simulate;
use std::hint::black_box;
use std::time::Duration;

/// The steps of the whole run, if nothing else is asked for.
pub const STEPS: u64 = 1_000_000;

/// The proved replay may take so many times as long as this one.
const MOST: f64 = 1.5;

const MODELS: [(&str, &str); 2] = [
    (
        "model free_list",
        include_str!("../../../models/free_list.txt"),
    ),
    ("model counter", include_str!("../../../models/counter.txt")),
];

/// A table, and a log of so many steps.
struct Recorded<'a> {
    name: &'static str,
    table: &'a [u8],
    log: &'a [u8],
    steps: u64,
}

/// The time of this program, and of the proved library if it is linked.
struct Times {
    rust: Duration,
    proved: Option<Duration>,
}

impl Times {
    fn ratio(&self) -> Option<f64> {
        let proved = self.proved?;
        Some(proved.as_secs_f64() / self.rust.as_secs_f64())
    }
}

/// A line for each part of each run, and how the times grow. An error if the proved replay of a whole run takes too long.
pub fn report(proved: Option<&dyn Replays>, steps: u64) -> Result<String, String> {
    let mut text = HEAD.to_string();
    let mut highest: f64 = 0.0;
    for (name, model) in MODELS {
        let table = bytes_of(&layout(model)?);
        let read = accept(&table).map_err(|refusal| format!("{name}: {refusal:?}"))?;
        let log = simulate(&read, steps, 1)?;
        let mut all = Vec::new();
        for part in parts(steps) {
            let recorded = Recorded {
                name,
                table: &table,
                log: &log[..bytes_of_steps(&log, part)],
                steps: part,
            };
            all.push(recorded.times(proved)?);
            text += &recorded.line(&all[all.len() - 1]);
        }
        text += &growth(&all);
        highest = highest.max(all[all.len() - 1].ratio().unwrap_or(0.0));
    }
    match highest <= MOST {
        true => Ok(text),
        false => Err(format!(
            "{text}the proved replay takes more than {MOST} times as long"
        )),
    }
}

const HEAD: &str =
    "log                  steps     rows     proved ms      Rust ms  ratio  Rust steps a second\n";

/// A quarter, a half and the whole.
fn parts(steps: u64) -> [u64; 3] {
    [steps / 4, steps / 2, steps]
}

/// The bytes of the initialisation and so many steps.
fn bytes_of_steps(log: &[u8], steps: u64) -> usize {
    let rows = log.chunks(ROW_BYTES);
    let starts = rows.enumerate().filter(|(_, row)| row.starts_with(b"  90"));
    let mut ends = starts.map(|(place, _)| place * ROW_BYTES);
    ends.nth(steps as usize + 1).unwrap_or(log.len())
}

impl Recorded<'_> {
    fn times(&self, proved: Option<&dyn Replays>) -> Result<Times, String> {
        let rust = || replay(black_box(self.table), black_box(self.log));
        if rust() != Ok(self.steps) {
            return Err(format!("{}: the log is no run", self.name));
        }
        let Some(proved) = proved else {
            return Ok(Times {
                rust: alone(rust),
                proved: None,
            });
        };
        let proved = || proved.replay(black_box(self.table), black_box(self.log));
        let reply = proved();
        if (reply.number, reply.value) != (0, self.steps) {
            return Err(format!(
                "{}: {reply:?} instead of {}",
                self.name, self.steps
            ));
        }
        let times = time("replay", proved, rust);
        Ok(Times {
            rust: times.rust,
            proved: Some(times.proved),
        })
    }

    fn line(&self, times: &Times) -> String {
        let millis = |time: Duration| format!("{:.1}", time.as_secs_f64() * 1e3);
        let shown = |number: Option<String>| number.unwrap_or("-".to_string());
        format!(
            "{:<16} {:>9} {:>8} {:>13} {:>12} {:>6} {:>20.0}\n",
            self.name,
            self.steps,
            self.log.len() / ROW_BYTES,
            shown(times.proved.map(millis)),
            millis(times.rust),
            shown(times.ratio().map(|ratio| format!("{ratio:.2}"))),
            self.steps as f64 / times.rust.as_secs_f64()
        )
    }
}

/// The median time of enough runs.
fn alone<T>(mut rust: impl FnMut() -> T) -> Duration {
    let mut runs = Runs::default();
    while !runs.are_enough() {
        runs.add(&mut rust);
    }
    runs.median()
}

/// The times of the parts in terms of the quarter's.
fn growth(all: &[Times]) -> String {
    let terms = |times: Vec<f64>| super::in_terms_of_first(&times);
    let seconds = |time: Duration| time.as_secs_f64();
    let rust = all.iter().map(|one| seconds(one.rust)).collect();
    let proved: Option<Vec<f64>> = all.iter().map(|one| one.proved.map(seconds)).collect();
    let proved = proved.map(|times| format!("proved{}, ", terms(times)));
    format!(
        "growth: {}Rust{}\n",
        proved.unwrap_or_default(),
        terms(rust)
    )
}
