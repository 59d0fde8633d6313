//! Press after press is replay, and a preview is a press on a copy.

use crate::common::table;
use compare::checks::accept;
use compare::generate::random::Random;
use compare::press::{Cause, Panel, Record};
use compare::replay::machine::{Change, Step};
use compare::replay::term::State;
use compare::replay::{replay, Role};
use compare::rows::{bytes_of, Row};
use compare::runs::simulate::{simulate, Simulator};
use compare::runs::tables::{large, replayed};
use compare::shrink::rows_of;
use compare::states::batch::{batch, Case};
use compare::states::maker::Maker;
use compare::states::reduced::reduced;
use compare::states::tables::pressed;
use compare::table::Table;
use std::collections::BTreeMap;

const MODELS: [&str; 3] = [
    include_str!("../../../models/counter.txt"),
    include_str!("../../../models/free_list.txt"),
    include_str!("../../../models/placing_head.txt"),
];

/// Tables made to be pressed, to be replayed, and large ones.
fn generated(seed: u64) -> (Vec<u8>, Random) {
    let mut random = Random::new(seed);
    let draft = match seed % 20 {
        0 => large(&mut random),
        1..=4 => replayed(&mut random),
        _ => pressed(&mut random),
    };
    (bytes_of(&draft.rows(&mut random)), random)
}

/// Presses the log's steps from what its initialisation leaves: each gives what the log has. The number of steps.
fn assert_reproduced(table: &[u8], log: &[u8], random: &mut Random) -> u64 {
    let steps = replay(table, log).expect("a run");
    let read = accept(table).expect("accepted");
    let panel = Panel::of(&read);
    let run = reduced(&read, &panel, log, random).expect("an initialisation");
    assert_eq!(run.steps.len() as u64, steps);
    let mut list = run.state;
    for pressed in run.steps {
        assert_eq!(panel.press(&pressed.step, &mut list), Ok(()));
        assert_eq!(list, pressed.after);
    }
    steps
}

#[test]
fn runs_of_models_are_reproduced_by_pressing() {
    for text in MODELS {
        let bytes = table(text);
        let read = accept(&bytes).expect("accepted");
        for seed in 0..4 {
            let log = simulate(&read, 100, seed).expect("a run");
            let steps = assert_reproduced(&bytes, &log, &mut Random::new(seed));
            assert_eq!(steps, 100);
        }
    }
}

#[test]
fn generated_runs_are_reproduced_by_pressing() {
    let (mut runs, mut steps) = (0, 0);
    for seed in 0..250 {
        let (bytes, mut random) = generated(seed);
        let read = accept(&bytes).expect("accepted");
        let panel = Panel::of(&read);
        let mut simulator = Simulator::new(&read, &panel.machine);
        let Some(first) = simulator.start(2, &mut random) else {
            continue;
        };
        let mut log = bytes_of(&first);
        for _ in 0..6 {
            let rows = simulator.step(&mut random).unwrap_or_default();
            log.extend(bytes_of(&rows));
        }
        runs += 1;
        steps += assert_reproduced(&bytes, &log, &mut random);
    }
    assert!(runs >= 160, "{runs}");
    assert!(steps >= 600, "{steps}");
}

/// The rows that a log has for a press, if they can hold its values; those of a 51 without value are 0.
fn logged(panel: &Panel, step: &[u8], before: &[Record]) -> Option<Vec<Row>> {
    let given = rows_of(step)?;
    let event: &Step = panel.event(given.first()?.a)?;
    let mut state = State::default();
    for (now, record) in state.now.iter_mut().zip(before) {
        *now = record.value;
    }
    for one in event.inputs() {
        let row = given[1..].iter().find(|row| row.a == one.number)?;
        state.now[one.place()] = i64::from(row.b);
    }
    let mut rows = vec![given[0]];
    for one in &event.logged {
        let row = given[1..].iter().find(|row| row.a == one.number);
        let value = match (row, change(event, one.place())) {
            (Some(row), _) => i64::from(row.b),
            (None, Some(Change::Equal(root))) => panel.machine.value(root, &state).unwrap_or(0),
            _ => state.now[one.place()],
        };
        rows.push(Row::new(91, one.number, i32::try_from(value).ok()?, 0));
    }
    Some(rows)
}

fn change(event: &Step, place: usize) -> Option<Change> {
    let found = event.variables.iter().find(|one| one.0 == place);
    found.map(|one| one.1)
}

/// Presses from a replayed initialisation, each written behind it as a log has it: replay performs and refuses the same, with
/// the same first fault. Counts what the presses gave.
fn assert_replayed(table: &Table, random: &mut Random, counts: &mut BTreeMap<String, usize>) {
    let panel = Panel::of(table);
    let mut maker = Maker::new(table, &panel);
    let Some((first, mut now)) = maker.initial(random) else {
        return;
    };
    let (mut log, mut steps) = (bytes_of(&first), 0);
    for _ in 0..8 {
        let step = match random.one_in(2) {
            true => maker.step(&now, false, random),
            false => maker.performed(&now, random),
        };
        let Some(rows) = logged(&panel, &step, &now) else {
            continue;
        };
        let longer = [&log[..], &bytes_of(&rows)].concat();
        let replayed = panel.machine.replay(&longer);
        let answer = panel.after(&step, &now);
        let word = match &answer {
            Ok(_) => "performed".to_string(),
            Err(cause) => format!("{cause:?}"),
        };
        *counts.entry(word).or_default() += 1;
        match answer {
            Ok(after) => {
                steps += 1;
                assert_eq!(replayed, Ok(steps));
                (now, log) = (after, longer);
            }
            Err(cause) => {
                let stopped = replayed.map_err(|stop| Cause::Step(stop.cause));
                assert_eq!(stopped, Err(cause));
            }
        }
    }
}

#[test]
fn presses_written_as_a_log_are_replayed() {
    let mut counts = BTreeMap::new();
    for seed in 0..300 {
        let (bytes, mut random) = generated(seed);
        let read = accept(&bytes).expect("accepted");
        assert_replayed(&read, &mut random, &mut counts);
    }
    let of = |word: &str| -> usize {
        let found = counts.iter().filter(|one| one.0.contains(word));
        found.map(|one| one.1).sum()
    };
    assert!(of("performed") >= 600, "{counts:?}");
    for role in [Role::Guard, Role::Equal, Role::SuchThat] {
        for verdict in ["Outside", "Undefined"] {
            let word = format!("{role:?}, {verdict}");
            assert!(of(&word) >= 6, "{word}: {counts:?}");
        }
    }
    assert!(of("False") >= 80, "{counts:?}");
    // Constants stay, so that no axiom is false behind an initialisation.
    assert_eq!(of("Axiom"), 0, "{counts:?}");
}

/// Over all generated lists and steps, whole or not.
#[test]
fn a_preview_is_a_press_on_a_copy() {
    let mut performed = 0;
    for number in 0..120 {
        let generated = batch(number);
        let Ok(read) = accept(&generated.table) else {
            continue;
        };
        let panel = Panel::of(&read);
        let mut now = Vec::new();
        for Case { state, step, .. } in generated.cases {
            now = state.unwrap_or(now);
            let (first, mut second) =
                (now.clone(), vec![Record::default(); read.identifiers.len()]);
            let untouched = second.clone();
            let previewed = panel.preview(&step, &first, &mut second);
            let mut copy = now.clone();
            assert_eq!(panel.press(&step, &mut copy), previewed);
            match previewed {
                Ok(()) => assert_eq!(second, copy),
                Err(_) => assert_eq!((second, &copy), (untouched, &now)),
            }
            performed += usize::from(previewed.is_ok());
            now = copy;
        }
    }
    assert!(performed >= 600, "{performed}");
}
