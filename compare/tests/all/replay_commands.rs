//! Commands that replay logs: a program in files, and the times.

use crate::common::plain_replay::{Mistake, Plain};
use compare::bench::replay::report;
use compare::program::replay::{compare, Replayer};
use std::path::Path;

/// This program, called with these words.
fn program(words: &[&str]) -> Replayer {
    Replayer::new(Path::new(env!("CARGO_BIN_EXE_compare")), words)
}

#[test]
fn this_program_prints_what_it_gives() {
    let same = compare(&program(&["replay"]), 0, 300);
    assert_eq!(same, Ok("300 logs\nno difference\n".to_string()));
}

/// A word that isn't known prints nothing.
#[test]
fn a_program_that_prints_something_else_is_found() {
    let found = compare(&program(&["nothing"]), 0, 300).expect_err("found");
    assert!(
        found.starts_with("DIFFERENCE at batch 0, log 0\nrow 1 of"),
        "{found}"
    );
    assert!(
        found.contains("the smallest table found, 0 bytes:\nits log, 0 bytes:\n"),
        "{found}"
    );
}

#[test]
fn replays_are_timed_in_three_parts() {
    let text = report(None, 40).expect("no proved replay takes long");
    let parts = ["     10 ", "     20 ", "     40 "];
    for name in ["model free_list", "model counter"] {
        let lines: Vec<&str> = text.lines().filter(|line| line.starts_with(name)).collect();
        assert_eq!(lines.len(), 3, "{text}");
        assert!(
            lines
                .iter()
                .zip(parts)
                .all(|(line, part)| line.contains(part)),
            "{text}"
        );
    }
    assert_eq!(text.matches("growth: Rust 1.0").count(), 2, "{text}");
}

#[test]
fn a_wrong_reply_is_not_timed() {
    let error = report(Some(&Plain(Mistake::CountsInitialisation)), 8).expect_err("wrong");
    assert!(error.contains("instead of 2"), "{error}");
}
