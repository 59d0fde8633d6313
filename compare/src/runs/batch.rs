//! Tables with many logs each, from a number.

use super::damage::{Damage, Subject, DAMAGES};
use super::recorded::Recorded;
use super::simulate::Simulator;
use super::tables::{large, replayed};
use crate::checks::accept;
use crate::generate;
use crate::generate::accepted_draft;
use crate::generate::random::Random;
use crate::replay::machine::Machine;
use crate::rows::{bytes_of, layout, ROW_BYTES};
use crate::table::Table;

/// A table and logs for it.
#[derive(Clone, Debug)]
pub struct Batch {
    pub table: Vec<u8>,
    pub logs: Vec<Vec<u8>>,
}

/// The logs of a batch.
pub const LOGS: usize = 25;

/// Real runs, wild steps and wild initialisations of a batch; all other logs are damaged.
const RUNS: usize = 3;
const WILD_STEPS: usize = 10;
const WILD_STARTS: usize = 4;

/// Initialisations of which the best is taken.
const STARTS: usize = 3;

const MODELS: [&str; 4] = [
    include_str!("../../../models/L.txt"),
    include_str!("../../../models/counter.txt"),
    include_str!("../../../models/placing_head.txt"),
    include_str!("../../../models/free_list.txt"),
];

/// The batch of this number: of forty, two have a table that may be refused, one a model, six any accepted table, the others
/// one that is made to be replayed, one of them a large one.
pub fn batch(number: u64) -> Batch {
    let mut random = Random::new(number ^ 0x5EED_0F10);
    let table = match number % 40 {
        0 | 1 => refused_in_turn(number),
        2 => model(&mut random),
        3..=8 => bytes_of(&accepted_draft(&mut random).rows(&mut random)),
        9 => bytes_of(&large(&mut random).rows(&mut random)),
        _ => bytes_of(&replayed(&mut random).rows(&mut random)),
    };
    batch_of(table, &mut random)
}

/// A table that may be refused, for the first two of forty numbers: all refusals in turn, by the first slots of a round of
/// seeds.
pub fn refused_in_turn(number: u64) -> Vec<u8> {
    let turn = (number / 40 * 2 + number % 40) % 27;
    generate::table(generate::ROUND * number + turn)
}

/// The table of any of the models.
pub fn model(random: &mut Random) -> Vec<u8> {
    bytes_of(&layout(random.pick(&MODELS)).expect("a model"))
}

/// The table with logs for it.
pub fn batch_of(table: Vec<u8>, random: &mut Random) -> Batch {
    let logs = match accept(&table) {
        Ok(read) => logs_of(&read, random),
        Err(_) => any_logs(random),
    };
    Batch { table, logs }
}

/// Logs for a table that is refused: a run of another one, damaged or not.
fn any_logs(random: &mut Random) -> Vec<Vec<u8>> {
    let rows = replayed(random).rows(random);
    let other = accept(&bytes_of(&rows)).expect("such tables are accepted");
    logs_of(&other, random)
}

/// As many logs as a batch has.
fn logs_of(table: &Table, random: &mut Random) -> Vec<Vec<u8>> {
    let machine = Machine::of(table);
    let mut simulator = Simulator::new(table, &machine);
    let Some(first) = simulator.start(STARTS, random) else {
        return without_run(table, &machine, random);
    };
    let mut run = Recorded::default();
    run.push(&first);
    let mut fresh = simulator.clone();
    for _ in 0..steps(random) {
        let Some(rows) = simulator.step(random) else {
            break;
        };
        run.push(&rows);
    }
    let mut logs = runs(&run, random);
    let start = run.first(1);
    logs.extend(wild_steps(&start, &mut fresh, WILD_STEPS / 2, random));
    logs.extend(wild_steps(&run, &mut simulator, WILD_STEPS / 2, random));
    logs.extend(wild_starts(&mut simulator, WILD_STARTS, random));
    let short = run.first(run.starts.len().min(1 + random.below(4)));
    damage(table, &machine, [&run, &short], &mut logs, random);
    logs
}

/// How many steps to take: few, or one in fifteen times some hundreds.
fn steps(random: &mut Random) -> usize {
    match random.below(30) {
        0 | 1 => random.between(100, 700),
        2..=5 => random.between(8, 30),
        _ => random.below(8),
    }
}

/// Logs where no run was found: any initialisations, damaged or not.
fn without_run(table: &Table, machine: &Machine, random: &mut Random) -> Vec<Vec<u8>> {
    let mut simulator = Simulator::new(table, machine);
    let mut logs = wild_starts(&mut simulator, LOGS / 2, random);
    let mut start = Recorded::default();
    start.push(&simulator.wild_start(random));
    damage(table, machine, [&start, &start], &mut logs, random);
    logs
}

/// The run after no step or one, after any number, and whole.
fn runs(run: &Recorded, random: &mut Random) -> Vec<Vec<u8>> {
    let all = run.starts.len();
    let few = random.between(1, 2).min(all);
    let steps: [usize; RUNS] = [few, random.between(1, all), all];
    steps.map(|steps| run.first(steps).bytes).into()
}

/// A run and a step that may not be allowed; in some logs more follows.
fn wild_steps(
    run: &Recorded,
    simulator: &mut Simulator,
    count: usize,
    random: &mut Random,
) -> Vec<Vec<u8>> {
    let mut logs = Vec::new();
    for _ in 0..count {
        let state = simulator.state.clone();
        let rows = simulator.wild_step(random).unwrap_or_default();
        simulator.state = state;
        let mut log = run.bytes.clone();
        log.extend(bytes_of(&rows));
        follow(&mut log, random);
        logs.push(log);
    }
    logs
}

/// Any initialisations; in some logs more follows.
fn wild_starts(simulator: &mut Simulator, count: usize, random: &mut Random) -> Vec<Vec<u8>> {
    let mut logs = Vec::new();
    for _ in 0..count {
        let mut log = bytes_of(&simulator.wild_start(random));
        follow(&mut log, random);
        logs.push(log);
    }
    logs
}

/// One in three times a few rows or a torn one.
fn follow(log: &mut Vec<u8>, random: &mut Random) {
    let length = match random.below(6) {
        0 => random.between(1, ROW_BYTES - 1),
        1 => random.between(1, 3) * ROW_BYTES,
        _ => 0,
    };
    log.extend_from_within(..length.min(log.len()));
}

/// Adds damaged logs of these runs, until a batch is full: as many damages as can be, then any.
fn damage(
    table: &Table,
    machine: &Machine,
    runs: [&Recorded; 2],
    logs: &mut Vec<Vec<u8>>,
    random: &mut Random,
) {
    let mut next = DAMAGES.to_vec();
    random.shuffle(&mut next);
    while logs.len() < LOGS {
        let run = random.pick(&runs);
        let subject = Subject {
            table,
            machine,
            run,
        };
        let damage = next.pop().unwrap_or_else(|| random.pick(&DAMAGES));
        let Some(damaged) = subject.damaged(damage, random) else {
            continue;
        };
        let mut log = damaged.log;
        // A second fault, behind the first or before it.
        if random.one_in(8) && damage != Damage::Torn {
            log.truncate(random.below(log.len() + 1));
        }
        logs.push(log);
    }
}
