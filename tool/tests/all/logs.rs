//! Logs of generated tables: as texts and back, byte for byte, and the reason of every refusal.

use crate::common::{model, on_a_stack};
use compare::checks::accept;
use compare::generate::random::Random;
use compare::replay::machine::Machine;
use compare::replay::{Cause as Compared, Role, Verdict as ComparedVerdict};
use compare::runs::batch::{batch, batch_of, Batch};
use compare::runs::family::whole_family;
use sifthorma::library::{check, replay, Refusal};
use sifthorma::log::shape::Shapes;
use sifthorma::log::write::write;
use sifthorma::log::Log;
use sifthorma::replay::find::{find, Cause, Expected, Found, Wrong};
use sifthorma::replay::judge::Verdict;
use sifthorma::replay::terms::Fault;
use sifthorma::replay::words::report;
use sifthorma::rows::{read_row, ROW_BYTES};
use sifthorma::source::Source;
use sifthorma::table::tag;
use std::collections::{BTreeMap, BTreeSet};

const BATCHES: u64 = 400;

/// Generated tables and logs, and logs of the models with their own names.
fn batches() -> Vec<(Source, Batch)> {
    let mut batches = Vec::new();
    for number in 0..BATCHES {
        let batch = batch(number);
        let source = Source::of("g.table", &batch.table).expect("a table");
        batches.push((source, batch));
    }
    let mut random = Random::new(7);
    for name in ["counter.eb", "free_list.eb", "placing_head.eb"] {
        for _ in 0..10 {
            let source = Source::of(name, &model(name)).expect("a model");
            let batch = batch_of(source.bytes.clone(), &mut random);
            batches.push((source, batch));
        }
    }
    batches.retain(|(source, _)| check(&source.bytes).is_ok());
    batches
}

/// The first row that isn't in the row form.
fn first_bad(log: &[u8]) -> Option<usize> {
    let mut rows = log.chunks(ROW_BYTES);
    rows.position(|row| read_row(row).is_none())
        .map(|place| place + 1)
}

/// Rows come back from their text byte for byte; other bytes have no text.
#[test]
fn logs_come_back() {
    let (mut back, mut kept, mut raw) = (0, 0, 0);
    on_a_stack(|| {
        for (source, batch) in batches() {
            let shapes = Shapes::of(&source.table, &source.names);
            for bytes in batch.logs {
                let text = match write(&bytes, &shapes) {
                    Err(row) => {
                        assert_eq!(first_bad(&bytes), Some(row));
                        continue;
                    }
                    Ok(text) => text,
                };
                assert_eq!(first_bad(&bytes), None);
                let again = Log::of("g.log", text.clone().into_bytes(), &shapes);
                let again = again.unwrap_or_else(|mistake| panic!("{mistake}\n{text}"));
                assert!(again.bytes == bytes, "other bytes\n{text}");
                assert_eq!(write(&again.bytes, &shapes).expect("rows"), text);
                back += 1;
                kept += usize::from(text.contains(".."));
                raw += usize::from(text.contains("91 "));
            }
        }
    });
    assert!(back > 5000, "{back}");
    assert!(kept > 2000, "{kept} with ..");
    assert!(raw > 300, "{raw} with rows as they are");
}

/// A cause in words that both programs have.
fn told(found: &Found, source: &Source) -> String {
    match &found.cause {
        Cause::Empty => "empty".to_string(),
        Cause::Ended { .. } => "ended".to_string(),
        Cause::Row {
            expected, wrong, ..
        } => match (expected, wrong) {
            (Expected::Value { .. }, Wrong::Torn(_)) => "torn inside".to_string(),
            (_, Wrong::Torn(_)) => "torn between".to_string(),
            _ => format!("{wrong:?}").to_lowercase(),
        },
        Cause::Step { verdict, .. } => told_verdict(verdict, source),
    }
}

fn told_verdict(verdict: &Verdict, source: &Source) -> String {
    let role = |place: usize| match source.table.rows[place].tag {
        tag::AXIOM => "axiom",
        tag::GUARD => "guard",
        tag::BECOMES_EQUAL => "equal",
        _ => "such that",
    };
    match verdict {
        Verdict::Changed { .. } => "changed".to_string(),
        Verdict::False { place } | Verdict::Gives { place, .. } => {
            format!("{} false", role(*place))
        }
        Verdict::Faulty { place, fault, .. } => match fault {
            Fault::Outside => format!("{} outside", role(*place)),
            Fault::Undefined => format!("{} undefined", role(*place)),
        },
    }
}

/// The same of the independent program.
fn told_there(cause: Compared) -> String {
    match cause {
        Compared::TornBetween => "torn between".to_string(),
        Compared::TornInside => "torn inside".to_string(),
        Compared::Kept => "changed".to_string(),
        Compared::Formula(role, verdict) => {
            let role = match role {
                Role::Axiom => "axiom",
                Role::Guard => "guard",
                Role::Equal => "equal",
                Role::SuchThat => "such that",
            };
            let verdict = match verdict {
                ComparedVerdict::Outside => "outside",
                ComparedVerdict::Undefined => "undefined",
                ComparedVerdict::False => "false",
            };
            format!("{role} {verdict}")
        }
        other => format!("{other:?}").to_lowercase(),
    }
}

/// The step that a row belongs to, the initialisation being 0; a row 90 and what stands behind a whole step begin one.
fn step_of(log: &[u8], row: usize) -> usize {
    let starts = |rows: usize| {
        let rows = log.chunks(ROW_BYTES).take(rows);
        rows.filter(|row| row.starts_with(b"  90")).count()
    };
    match row {
        0 => starts(usize::MAX).saturating_sub(1),
        _ => starts(row - 1),
    }
}

/// The reason of a refusal is the one that the independent program has; the report names row, step and event.
fn assert_told(source: &Source, bytes: &[u8], met: &mut BTreeMap<String, usize>) {
    let shapes = Shapes::of(&source.table, &source.names);
    let log = Log::of_rows("g.log", bytes.to_vec());
    let machine = Machine::of(&accept(&source.bytes).expect("accepted"));
    let stopped = machine.replay(bytes);
    let refusal = match replay(&source.bytes, bytes) {
        Ok(steps) => return assert_eq!(stopped, Ok(steps)),
        Err(refusal) => refusal,
    };
    let stop = stopped.expect_err("refused too");
    assert_eq!(stop.row, refusal.row);
    let said = report(source, &shapes, &log, refusal);
    let found = find(&source.table, &shapes, &log, refusal).expect("a reason");
    let cause = told(&found, source);
    assert_eq!(cause, told_there(stop.cause), "{said}");
    let place = match refusal.row {
        0 => "g.log: ".to_string(),
        row => format!("g.log:{row}: "),
    };
    let head = format!("{place}refusal {} (", refusal.number);
    assert!(said.starts_with(&head), "{said}");
    assert!(
        said.contains(&format!("), row {}: ", refusal.row)),
        "{said}"
    );
    assert!(!said.contains("the library refuses"), "{said}");
    assert_eq!(said.chars().filter(|c| c.is_control()).count(), 2, "{said}");
    match found.cause {
        Cause::Step { event, .. } => {
            let row = log.row(refusal.row).expect("a row 90");
            assert_eq!((row.tag, row.a), (90, event));
            assert_eq!(found.step, step_of(bytes, refusal.row));
        }
        Cause::Ended { .. } => assert_eq!(found.step, step_of(bytes, 0)),
        Cause::Row { row, .. } => assert_eq!(row, refusal.row),
        Cause::Empty => assert!(bytes.is_empty()),
    }
    *met.entry(cause).or_default() += 1;
}

const CAUSES: [&str; 22] = [
    "axiom false",
    "axiom outside",
    "axiom undefined",
    "boolean",
    "changed",
    "empty",
    "ended",
    "equal false",
    "equal outside",
    "equal undefined",
    "event",
    "form",
    "guard false",
    "guard outside",
    "guard undefined",
    "identifier",
    "such that false",
    "such that outside",
    "such that undefined",
    "tag",
    "torn between",
    "torn inside",
];

#[test]
fn every_refusal_has_its_reason() {
    let mut met = BTreeMap::new();
    on_a_stack(|| {
        for (source, batch) in batches() {
            for log in &batch.logs {
                assert_told(&source, log, &mut met);
            }
        }
    });
    let causes: BTreeSet<&str> = met.keys().map(String::as_str).collect();
    let wanted: BTreeSet<&str> = CAUSES.into_iter().chain(["unused"]).collect();
    assert_eq!(causes, wanted, "{met:?}");
}

/// Every operator over operands of every class, in every place that a replay reads, and the deepest formulas.
#[test]
fn every_operator_has_its_reason() {
    let mut met = BTreeMap::new();
    on_a_stack(|| {
        for batch in whole_family() {
            let source = Source::of("g.table", &batch.table).expect("a table");
            for log in &batch.logs {
                assert_told(&source, log, &mut met);
            }
        }
    });
    assert!(met.len() >= 8, "{met:?}");
}

/// What is put into texts: words and signs, or values and rows.
const WORDS: &str = "INITIALISATION take1 release1: : = , .. TRUE FALSE free taken1 n blocks 0 1 2 -1 − -2147483648 2147483648 \
    99999999999999999999 // /* */ 90 91 90 4 0 0 91 2 3 0 91 0 0 0 -1 0 0 0 ; é ℤ ' \u{FEFF}";
const VALUES: &str = " taken1 = 2, taken2 = TRUE, taken3 = -1, blocks = 4, free = 2147483648, head = −1, link1 = 0, n = 1,\
    91 2 3 0, 91 0 0 0, 90 5 0 0, 90 0 0 0, 91 8 1 1, 0 0 0 0, .., take3:, sweep1:, INITIALISATION:,";

/// A text with a few places changed: words, values or lines left out, doubled, put in or cut.
fn damaged(text: &str, random: &mut Random) -> String {
    let (between, put_in): (&[char], &str) =
        random.pick(&[(&[' '], WORDS), (&[','], VALUES), (&['\n'], text)]);
    let mut pieces: Vec<&str> = text.split_inclusive(between).collect();
    let others: Vec<&str> = put_in.split_inclusive(between).collect();
    for _ in 0..random.between(1, 3) {
        let place = random.below(pieces.len());
        match random.below(5) {
            0 if pieces.len() > 1 => drop(pieces.remove(place)),
            1 => pieces.insert(place, pieces[place]),
            2 => pieces[place] = random.pick(&others),
            3 if random.one_in(4) => pieces.truncate(place + 1),
            _ => pieces.insert(place, random.pick(&others)),
        }
    }
    pieces.concat()
}

/// A damaged text is a mistake with its place, or rows that the library judges, with a reason on a refusal.
#[test]
fn damaged_texts_are_told() {
    let mut random = Random::new(11);
    let source = Source::of("free_list.eb", &model("free_list.eb")).expect("a model");
    let shapes = Shapes::of(&source.table, &source.names);
    let text = String::from_utf8(model("free_list.log")).expect("UTF-8");
    let (_, text) = text.split_once("\n\n").expect("steps behind a comment");
    let (mut mistakes, mut met) = (0, BTreeMap::new());
    for _ in 0..10_000 {
        let text = damaged(text, &mut random);
        match Log::of("l.txt", text.into_bytes(), &shapes) {
            Err(mistake) => {
                assert!(mistake.starts_with("l.txt:"), "{mistake}");
                assert!(!mistake.contains(['\n', '\u{FEFF}']), "{mistake}");
                mistakes += 1;
            }
            Ok(log) => assert_told(&source, &log.bytes, &mut met),
        }
    }
    assert!(mistakes > 3000, "{mistakes}");
    assert!(met.len() >= 8, "{met:?}");
}

/// Where the tool finds no reason for what the library says, it says number and row, and nothing else.
#[test]
fn without_a_reason_none_is_given() {
    let source = Source::of("free_list.eb", &model("free_list.eb")).expect("a model");
    let shapes = Shapes::of(&source.table, &source.names);
    let log = Log::of("l.log", model("free_list.log"), &shapes).expect("a log");
    assert_eq!(replay(&source.bytes, &log.bytes), Ok(5));
    for number in 16..=18 {
        for row in 0..=74 {
            let said = report(&source, &shapes, &log, Refusal { number, row });
            let plain = format!("), row {row}: the library refuses the log here\n");
            assert!(said.contains(&plain), "{said}");
        }
    }
}
