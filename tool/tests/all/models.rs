//! The models of ../models: their tables, what is stored beside them, and which sequents small values refute.

use crate::common::{edited, model, models, read, run, spelled, text_of};
use sifthorma::formula::Formula;
use sifthorma::library::entry;
use sifthorma::refute::{refutes, search, Found};
use sifthorma::sequents::{Answers, Sequent};
use sifthorma::source::Source;
use std::ops::RangeInclusive;
use std::path::Path;
use std::process::Command;

/// The models with stored answers, and the integers with which counterexamples are looked for.
const ANSWERED: [(&str, &str, &str); 4] = [
    ("counter", "-2", "7"),
    ("double_release", "-1", "4"),
    ("free_list", "-1", "4"),
    ("placing_head", "-4", "6"),
];

/// The names of the models that have files of both endings.
fn both(first: &str, second: &str) -> Vec<String> {
    let files = models(first);
    let names = files.iter().filter_map(|file| file.strip_suffix(first));
    let others = models(second);
    let beside = |name: &&str| others.contains(&format!("{name}{second}"));
    names.filter(beside).map(str::to_string).collect()
}

#[test]
fn a_text_is_the_table_that_is_laid_out_beside_it() {
    let compared = both(".eb", ".txt");
    assert!(compared.len() >= 3, "{compared:?}");
    for name in compared {
        let rows = Command::new("sh")
            .args(["layout", &format!("{name}.txt")])
            .current_dir(Path::new(env!("CARGO_MANIFEST_DIR")).join("../models"))
            .output();
        let table = run(&["table", &format!("models/{name}.eb")]);
        assert_eq!(table.status, Some(0), "{name}");
        let rows = rows.expect("sh runs").stdout;
        assert!(table.output.into_bytes() == rows, "{name}");
    }
}

#[test]
fn stored_output_is_printed() {
    let compared = both(".eb", ".out");
    assert!(compared.len() >= 3, "{compared:?}");
    for name in compared {
        let printed = run(&["print", &format!("models/{name}.eb")]);
        assert!(printed.output == text_of(&format!("{name}.out")), "{name}");
    }
}

#[test]
fn stored_answers_are_given() {
    let stored = ANSWERED.map(|(name, ..)| format!("{name}.answers"));
    assert_eq!(models(".answers"), stored);
    for (name, low, high) in ANSWERED {
        let file = format!("models/{name}.eb");
        let checked = run(&["check", &file]).output;
        let refuted = run(&["refute", &file, low, high]).output;
        let stored = text_of(&format!("{name}.answers"));
        assert_eq!(checked + &refuted, stored, "{name}");
    }
}

/// The logs with stored replays, and the models for which they are replayed.
const REPLAYED: [(&str, &[&str]); 2] = [
    ("double_release", &["free_list", "double_release"]),
    ("free_list", &["free_list"]),
];

#[test]
fn stored_replays_are_given() {
    let stored = |end: &str| REPLAYED.map(|(name, _)| format!("{name}{end}"));
    assert_eq!(models(".log"), stored(".log"));
    assert_eq!(models(".replay"), stored(".replay"));
    for (name, models) in REPLAYED {
        let log = format!("models/{name}.log");
        let replays = models.iter().map(|model| {
            let model = format!("models/{model}.eb");
            run(&["replay", &model, &log]).output
        });
        let stored = text_of(&format!("{name}.replay"));
        assert_eq!(replays.collect::<String>(), stored, "{name}");
    }
}

/// The labels of the sequents that values of this range refute; all of them are searched to the end.
fn refuted(source: &Source, integers: RangeInclusive<i128>) -> Vec<String> {
    let label = |sequent: &Sequent| sequent.label(&source.table, &source.names);
    let mut labels = Vec::new();
    for one in spelled(source) {
        match search(&one, &source.table, integers.clone()) {
            Found::Counterexample(values) => {
                assert!(refutes(&one, &source.table, &values));
                labels.push(label(&one.sequent));
            }
            found => assert_eq!(found, Found::Nothing, "{}", label(&one.sequent)),
        }
    }
    labels
}

/// The model with one place changed.
fn changed(file: &str, from: &str, to: &str) -> Source {
    read(&edited(&text_of(file), from, to)).expect("no mistake")
}

#[test]
fn no_small_values_refute_a_model() {
    let of = |file: &str| Source::of(file, &model(file)).expect("no mistake");
    let none: [&str; 0] = [];
    assert_eq!(refuted(&of("L.txt"), -9..=9), none);
    assert_eq!(refuted(&of("counter.eb"), -2..=7), none);
    assert_eq!(refuted(&of("free_list.eb"), -1..=4), none);
    assert_eq!(refuted(&of("placing_head.eb"), -4..=6), none);
}

/// Releasing a block that isn't taken breaks GRD of "free + n ≤ blocks" and INV of the places' sum.
#[test]
fn a_block_freed_twice_is_refuted() {
    let guard = "@grd1 taken1 = TRUE   // not released before";
    let model = changed("free_list.eb", guard, "@grd1 taken1 = taken1");
    let labels = ["release1/grd2/GRD", "release1/inv10/INV"];
    assert_eq!(refuted(&model, -1..=4), labels);
}

/// A counter that carries below its base doesn't converge.
#[test]
fn a_carry_without_its_guard_is_refuted() {
    let model = changed("counter.eb", "@grd1 base ≤ ones", "@grd1 ones ≤ ones");
    assert_eq!(refuted(&model, -2..=7), ["carry/VAR"]);
}

/// Without its guard 0 ≤ d a picture moves the target away: INV of gap ≤ reach and VAR of the anticipated event.
#[test]
fn a_target_moved_away_is_refuted() {
    let model = changed("placing_head.eb", "@grd1 0 ≤ d", "@grd1 d ≤ d");
    assert_eq!(refuted(&model, -4..=6), ["look/inv3/INV", "look/VAR"]);
}

/// A picture that changes nothing doesn't converge: as a convergent event look has NAT too, and its VAR isn't valid.
#[test]
fn an_anticipated_event_need_not_converge() {
    let model = changed("placing_head.eb", "anticipated event", "convergent event");
    assert_eq!(spelled(&model).len(), 25);
    assert_eq!(refuted(&model, -4..=6), ["look/VAR"]);
}

/// The free list's sequents have 3,638 entries, of which 170 are different. Each is spelled in all sequents as in the first.
#[test]
fn an_entry_is_spelled_once() {
    let source = Source::of("free_list.eb", &model("free_list.eb")).expect("no mistake");
    let mut answers = Answers::new(&source.bytes);
    let mut entries = 0;
    for sequent in answers.all(138).expect("138 sequents") {
        let k = sequent.k;
        let spelled = answers.spell(sequent).expect("entries");
        let formulas = spelled.hypotheses.iter().chain([&spelled.goal]);
        for (formula, j) in formulas.zip(1..) {
            let rows = entry(&source.bytes, k, j).expect("an entry");
            let alone = Formula::spelled(&rows).expect("a formula");
            let written = |formula| source.names.written(formula, &source.table);
            assert_eq!(written(formula), written(&alone));
            entries += 1;
        }
    }
    assert_eq!((answers.spelled_count(), entries), (170, 3638));
}
