//! Generated logs: real runs are runs, and damage gives what it must.

use crate::common::{refusal, table, L};
use compare::checks::{accept, Refusal};
use compare::generate::random::Random;
use compare::replay::log::Logged;
use compare::replay::machine::{Change, Machine, Step};
use compare::replay::{replay, Stop, NOT_A_RUN};
use compare::rows::{bytes_of, read_row, Row, ROW_BYTES};
use compare::runs::batch::{batch, LOGS};
use compare::runs::damage::{Damage, Damaged, Subject, DAMAGES};
use compare::runs::recorded::Recorded;
use compare::runs::simulate::{simulate, Simulator};
use compare::runs::tables::{large, replayed};
use compare::table::Table;
use std::collections::{BTreeMap, BTreeSet};

/// The models, and the concrete events of each but the initialisation.
const MODELS: [(&str, &[i32]); 3] = [
    (include_str!("../../../models/counter.txt"), &[5, 6, 7]),
    (
        include_str!("../../../models/free_list.txt"),
        &[5, 6, 7, 8, 9, 10, 11, 12, 13],
    ),
    (include_str!("../../../models/placing_head.txt"), &[4, 5, 6]),
];

/// The events of a log, the first one too.
fn events(log: &[u8]) -> BTreeSet<i32> {
    let rows = log.chunks(ROW_BYTES).filter_map(read_row);
    rows.filter(|row| row.tag == 90).map(|row| row.a).collect()
}

#[test]
fn models_have_long_runs_of_all_their_events() {
    for (text, wanted) in MODELS {
        let bytes = table(text);
        let read = accept(&bytes).expect("accepted");
        let mut met = BTreeSet::new();
        for seed in 0..20 {
            let log = simulate(&read, 300, seed).expect("a run");
            assert_eq!(replay(&bytes, &log), Ok(300));
            met.extend(events(&log));
        }
        met.pop_first();
        assert_eq!(met, wanted.iter().copied().collect());
    }
}

#[test]
fn a_seed_has_one_run() {
    let read = accept(&table(MODELS[0].0)).expect("accepted");
    assert_eq!(simulate(&read, 50, 7), simulate(&read, 50, 7));
    assert_ne!(simulate(&read, 50, 7), simulate(&read, 50, 8));
}

/// L has no event besides the initialisations.
#[test]
fn a_run_that_ends_is_said_to_end() {
    let read = accept(&table(L)).expect("accepted");
    assert_eq!(simulate(&read, 0, 1), Ok(table("90 2 0 0; 91 2 0 0")));
    let end = "no step was found after 0".to_string();
    assert_eq!(simulate(&read, 1, 1), Err(end));
}

/// A table made to be replayed, with a run of it if one is found.
fn recorded(seed: u64) -> (Table, Recorded) {
    let mut random = Random::new(seed);
    let rows = replayed(&mut random).rows(&mut random);
    let read = accept(&bytes_of(&rows)).expect("such tables are accepted");
    let machine = Machine::of(&read);
    let mut simulator = Simulator::new(&read, &machine);
    let mut run = Recorded::default();
    if let Some(rows) = simulator.start(3, &mut random) {
        run.push(&rows);
        for _ in 0..random.below(6) {
            let rows = simulator.step(&mut random);
            rows.iter().for_each(|rows| run.push(rows));
        }
    }
    (read, run)
}

#[test]
fn most_tables_that_are_made_for_it_have_runs_and_these_are_accepted() {
    let (mut with_run, mut with_steps) = (0, 0);
    for seed in 0..1000 {
        let (read, run) = recorded(seed);
        if run.starts.is_empty() {
            continue;
        }
        let steps = run.starts.len() as u64 - 1;
        with_run += 1;
        with_steps += usize::from(steps > 0);
        assert_eq!(Machine::of(&read).replay(&run.bytes), Ok(steps), "{seed}");
        for first in 1..=run.starts.len() {
            let answer = Machine::of(&read).replay(&run.first(first).bytes);
            assert_eq!(answer, Ok(first as u64 - 1), "{seed}");
        }
    }
    assert!(with_run >= 700, "{with_run}");
    assert!(with_steps >= 350, "{with_steps}");
}

/// A run, its machine, and what was done to it.
struct Case<'a> {
    machine: &'a Machine,
    run: &'a Recorded,
    damaged: &'a Damaged,
}

impl Case<'_> {
    fn place(&self) -> usize {
        self.damaged.place
    }

    /// The damaged row as it is now, if it is in the row form.
    fn now(&self) -> Option<Row> {
        let mut rows = self.damaged.log.chunks(ROW_BYTES);
        rows.nth(self.place()).and_then(read_row)
    }

    /// The event of the damaged row's step, and the number of its row 90.
    fn step(&self) -> (&Step, usize) {
        let start = self.run.starts[self.run.step_of(self.place())];
        let step = self.machine.step(self.run.row(start).a);
        (step.expect("a concrete event"), start + 1)
    }

    fn logged(&self) -> Logged {
        let number = self.run.row(self.place()).a;
        let mut logged = self.step().0.logged.iter();
        *logged.find(|one| one.number == number).expect("logged")
    }

    /// What a changed value gives, if that is known without the formulas.
    fn of_value(&self) -> Option<usize> {
        let now = self.now().expect("still a row").b;
        let (logged, (step, start)) = (self.logged(), self.step());
        if logged.boolean && !(0..=1).contains(&now) {
            return Some(self.place() + 1);
        }
        let mut changes = step.variables.iter();
        let change = changes.find(|one| one.0 == logged.place())?.1;
        (!matches!(change, Change::SuchThat(_))).then_some(start)
    }

    fn of_event(&self) -> Option<usize> {
        let event = self.now().expect("still a row").a;
        let fits = |step: &Step| (step.event == self.machine.initial) == (self.place() == 0);
        let fits = self.machine.step(event).is_some_and(fits);
        (!fits).then_some(self.place() + 1)
    }

    /// A row 90 alone is a whole step, so that more or fewer of them can be a run.
    fn of_row(&self, next: usize) -> Option<usize> {
        let alone = self.step().0.logged.is_empty();
        let is_last = self.place() + 1 == self.run.rows();
        match (alone, is_last && next == self.place() + 1) {
            (true, _) => None,
            (_, true) => Some(0),
            _ => Some(next),
        }
    }

    fn of_cut(&self) -> Result<u64, usize> {
        match self.run.starts.binary_search(&self.place()) {
            Ok(0) | Err(_) => Err(0),
            Ok(step) => Ok(step as u64 - 1),
        }
    }

    /// Two rows 91 of one step, the second put before the first.
    fn of_exchange(&self) -> Option<usize> {
        let values = |place: usize| place < self.run.rows() && !self.run.is_start(place);
        let place = self.place();
        let same = |other: usize| self.run.step_of(place) == self.run.step_of(other);
        let wrong = self.now().expect("still a row").a != self.run.row(place).a;
        (values(place) && wrong && values(place + 1) && same(place + 1)).then_some(place + 1)
    }
}

/// What the damage must give, where that is known: the steps, or the row that is named with 18.
fn known(damage: Damage, case: &Case) -> Option<Result<u64, usize>> {
    let place = case.place();
    let row = match damage {
        Damage::ByOne | Damage::ToAnEnd => case.of_value()?,
        Damage::NoBoolean | Damage::OtherTag | Damage::UnusedColumn => place + 1,
        Damage::OutOfForm | Damage::OtherIdentifier | Damage::Torn => place + 1,
        Damage::OtherEvent => case.of_event()?,
        Damage::Cut => return Some(case.of_cut()),
        Damage::CutInside | Damage::Emptied => 0,
        Damage::Dropped => case.of_row(place + 1)?,
        Damage::Doubled => case.of_row(place + 2)?,
        Damage::Exchanged => case.of_exchange()?,
        Damage::KeptChanged => case.step().1,
        Damage::StepDropped if place == 0 => usize::from(case.run.starts.len() > 1),
        Damage::StepDoubled if place == 0 => case.run.step(0).end + 1,
        Damage::OtherValues | Damage::StepDropped | Damage::StepDoubled => return None,
        Damage::StepsExchanged if place == 0 => 1,
        Damage::StepsExchanged | Damage::More | Damage::Byte => return None,
    };
    Some(Err(row))
}

#[test]
fn damage_gives_what_it_must() {
    let mut counts: BTreeMap<Damage, usize> = BTreeMap::new();
    for seed in 0..400 {
        let (read, run) = recorded(seed);
        if run.starts.is_empty() {
            continue;
        }
        let machine = Machine::of(&read);
        let subject = Subject {
            table: &read,
            machine: &machine,
            run: &run,
        };
        let mut random = Random::new(seed);
        for damage in DAMAGES.into_iter().cycle().take(3 * DAMAGES.len()) {
            let Some(damaged) = subject.damaged(damage, &mut random) else {
                continue;
            };
            let case = Case {
                machine: &machine,
                run: &run,
                damaged: &damaged,
            };
            let Some(wanted) = known(damage, &case) else {
                continue;
            };
            let wanted = wanted.map_err(|row| refusal(NOT_A_RUN, row));
            let answer: Result<u64, Refusal> = machine.replay(&damaged.log).map_err(Stop::refusal);
            assert_eq!(answer, wanted, "seed {seed}, {damage:?}, {damaged:?}");
            *counts.entry(damage).or_default() += 1;
        }
    }
    // What isn't known by construction is compared with the library all the same.
    let unknown = [Damage::OtherValues, Damage::More, Damage::Byte];
    for damage in DAMAGES {
        let count = counts.get(&damage).copied().unwrap_or(0);
        let floor = if unknown.contains(&damage) { 0 } else { 100 };
        assert!(count >= floor, "{damage:?}: {count}");
    }
}

/// Tables at the limits have runs too.
#[test]
fn large_tables_have_runs() {
    let (mut starts, mut steps, mut logged) = (0, 0, 0);
    for seed in 0..40 {
        let mut random = Random::new(seed);
        let rows = large(&mut random).rows(&mut random);
        let bytes = bytes_of(&rows);
        let read = accept(&bytes).expect("such tables are accepted");
        if let Ok(log) = simulate(&read, 0, seed) {
            assert_eq!(replay(&bytes, &log), Ok(0));
            starts += 1;
            logged = logged.max(log.len() / ROW_BYTES);
        }
        if let Ok(log) = simulate(&read, 10, seed) {
            assert_eq!(replay(&bytes, &log), Ok(10));
            steps += 1;
        }
    }
    assert!(starts >= 20, "{starts}");
    assert!(steps >= 10, "{steps}");
    assert!(logged >= 39, "{logged}");
}

#[test]
fn torn_ends_have_every_length() {
    let logs = (0..400).flat_map(|number| batch(number).logs);
    let lengths: BTreeSet<usize> = logs.map(|log| log.len() % ROW_BYTES).collect();
    assert_eq!(lengths.len(), ROW_BYTES);
}

#[test]
fn a_number_has_one_batch_of_so_many_logs() {
    for number in 0..200 {
        let (one, other) = (batch(number), batch(number));
        assert_eq!(one.table, other.table);
        assert_eq!(one.logs, other.logs);
        assert_eq!(one.logs.len(), LOGS);
    }
}
