//! The bench without a terminal: runs of models and of generated tables pressed step by step, and what it keeps of them.

use crate::common::{model, on_a_stack};
use compare::checks::accept;
use compare::generate::random::Random;
use compare::runs::batch::batch;
use compare::runs::simulate::simulate;
use sifthorma::bench::choice::{asked, Choice};
use sifthorma::bench::keep::bytes_of;
use sifthorma::bench::lines::Lines;
use sifthorma::bench::session::{run, start};
use sifthorma::bench::{Bench, NoStep};
use sifthorma::library::{check, replay};
use sifthorma::log::shape::Shapes;
use sifthorma::log::{Log, STEP};
use sifthorma::rows::{read_rows, Row};
use sifthorma::source::Source;
use std::collections::BTreeMap;

/// How many batches of logs are walked.
const BATCHES: u64 = 40;

fn source(name: &str) -> Source {
    Source::of(name, &model(name)).expect("a model")
}

/// The steps of a log, each with its row 90.
fn steps_of(rows: &[Row]) -> Vec<&[Row]> {
    rows.chunk_by(|_, next| next.tag != STEP).collect()
}

/// What is asked for a step, answered by its rows.
fn choice_of(source: &Source, shapes: &Shapes, step: &[Row]) -> Choice {
    let event = step[0].a;
    let shape = shapes.of_event(event).expect("an event of the refinement");
    let asked = asked(&source.table, shape);
    let is_asked = |row: &&Row| asked.iter().any(|one| one.number == row.a);
    let answers = step[1..].iter().filter(is_asked);
    let answers = answers.map(|row| (row.a, row.b)).collect();
    Choice { event, answers }
}

/// An event with answers that may allow a step or not.
fn any_choice(bench: &Bench, random: &mut Random) -> Option<Choice> {
    let shapes: Vec<_> = bench.events().collect();
    let shape = *shapes.get(random.below(shapes.len().max(1)))?;
    let answer = |boolean: bool, random: &mut Random| match boolean {
        true => random.below(2) as i64,
        false => random.pick(&[
            0,
            1,
            -1,
            2,
            3,
            -7,
            100,
            i64::from(i32::MIN),
            i64::from(i32::MAX),
        ]),
    };
    let asked = asked(&bench.source.table, shape).into_iter();
    Some(Choice {
        event: shape.event,
        answers: asked
            .map(|one| (one.number, answer(one.boolean, random)))
            .collect(),
    })
}

/// Any choice: the library's answer is that of a replay of the run with the step, and a refusal has its reason.
fn assert_previewed(bench: &mut Bench, random: &mut Random, met: &mut BTreeMap<u64, usize>) {
    let Some(choice) = any_choice(bench, random) else {
        return;
    };
    let before = (bench.state().to_vec(), bench.rows().to_vec());
    let previewed = bench.preview(choice);
    let number = match &previewed {
        Ok(preview) => {
            bench.press(preview).expect("previewed");
            assert_eq!(bench.state(), preview.after);
            if let Ok(bytes) = bytes_of(bench.source, bench.rows()) {
                assert_eq!(
                    replay(&bench.source.bytes, &bytes),
                    Ok(bench.steps() as u64)
                );
            }
            bench.undo().expect("a press");
            0
        }
        Err(NoStep { number, reason }) => {
            assert!(
                !reason.contains("the library refuses"),
                "{number}: {reason}"
            );
            *number
        }
    };
    assert_eq!(
        (bench.state(), bench.rows()),
        (&before.0[..], &before.1[..])
    );
    *met.entry(number).or_default() += 1;
}

/// A run that the library accepts, chosen step by step, gives its rows; taken back, nothing but the initialisation is left.
fn assert_walked(source: &Source, log: &[u8], random: &mut Random, met: &mut BTreeMap<u64, usize>) {
    let shapes = Shapes::of(&source.table, &source.names);
    let rows = read_rows(log).expect("rows");
    let steps = steps_of(&rows);
    let answers = choice_of(source, &shapes, steps[0]).answers;
    let mut bench = Bench::begin(source, &shapes, answers).expect("an initialisation");
    for step in &steps[1..] {
        assert_previewed(&mut bench, random, met);
        let preview = bench.preview(choice_of(source, &shapes, step));
        let preview = preview.expect("a step of the run");
        bench.press(&preview).expect("the same as the preview");
    }
    assert_eq!(bench.rows(), rows);
    assert_eq!(bench.has_unwritten(), steps.len() > 1);
    let resumed = Bench::resume(source, &shapes, &Log::of_rows("l", log.to_vec()));
    let resumed = resumed.expect("a run");
    assert_eq!(resumed.state(), bench.state());
    assert_eq!(resumed.steps(), bench.steps());
    assert!(!resumed.has_unwritten());
    for step in steps[1..].iter().rev() {
        assert_eq!(bench.undo(), Some(step[0].a));
    }
    assert_eq!((bench.undo(), bench.rows()), (None, steps[0]));
    assert!(!bench.has_unwritten());
}

#[test]
fn runs_of_the_models() {
    let (mut random, mut met) = (Random::new(3), BTreeMap::new());
    for name in ["counter.eb", "free_list.eb", "placing_head.eb"] {
        let source = source(name);
        let table = accept(&source.bytes).expect("accepted");
        for (steps, seed) in [(0, 1), (1, 2), (25, 3)] {
            let log = simulate(&table, steps, seed).expect("a run");
            assert_walked(&source, &log, &mut random, &mut met);
        }
    }
    assert!(met[&0] > 10 && met[&18] > 10, "{met:?}");
}

/// Generated tables, with terms that leave 64 bits or divide by 0 on the way.
#[test]
fn runs_of_generated_tables() {
    let (mut random, mut met) = (Random::new(5), BTreeMap::new());
    on_a_stack(|| {
        for number in 0..BATCHES {
            let batch = batch(number);
            let source = Source::of("g.table", &batch.table).expect("a table");
            if check(&source.bytes).is_err() {
                continue;
            }
            let runs = batch.logs.iter();
            for log in runs.filter(|log| replay(&source.bytes, log).is_ok()) {
                assert_walked(&source, log, &mut random, &mut met);
            }
        }
    });
    assert!(
        [0, 16, 17, 18]
            .iter()
            .all(|number| met.contains_key(number)),
        "{met:?}"
    );
}

/// A preview that isn't what pressing gives, as one of an earlier state, isn't pressed.
#[test]
fn a_preview_that_does_not_agree() {
    let source = source("free_list.eb");
    let shapes = Shapes::of(&source.table, &source.names);
    let mut bench = Bench::begin(&source, &shapes, vec![(1, 3)]).expect("a start");
    let event = bench.event("take1").expect("an event").event;
    let answers = vec![];
    let mut preview = bench.preview(Choice { event, answers }).expect("enabled");
    let taken = preview.after.clone();
    preview.after[3].value += 1;
    let before = (bench.state().to_vec(), bench.rows().to_vec());
    let said = bench.press(&preview).expect_err("not the same");
    assert_eq!(
        said,
        "the library's press and preview don't agree, so the step isn't taken"
    );
    assert_eq!(
        (bench.state(), bench.rows()),
        (&before.0[..], &before.1[..])
    );
    preview.after = taken;
    bench.press(&preview).expect("the same");
    let said = bench.press(&preview).expect_err("no longer enabled");
    assert!(said.starts_with("refusal 18 (log): step 2 isn't allowed: guard @grd1 of event take1"));
    assert_eq!(bench.steps(), 1);
}

/// A session on lines in memory: at a terminal what is typed isn't written again.
#[test]
fn lines_in_memory() {
    let source = source("counter.eb");
    let shapes = Shapes::of(&source.table, &source.names);
    let mut written = Vec::new();
    let mut typed = "10\n100\nrun\n".as_bytes();
    let mut lines = Lines::new(&mut typed, &mut written, false);
    let bench = start(&mut lines, &source, &shapes).expect("room");
    run(&mut lines, &mut bench.expect("a start")).expect("room");
    let written = String::from_utf8(written).expect("UTF-8");
    assert!(written.starts_with("base ∈ ℤ? limit ∈ ℤ? after the initialisation:\n"));
    assert!(written.ends_with("> INITIALISATION: base = 10, limit = 100, tens = 0, ones = 0\n> \n"));
}
