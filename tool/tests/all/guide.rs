//! The examples of ../docs/GUIDE.md: what is shown after a `$` is what the program answers, and texts are those of the models.

use crate::common::{is_shown, play, run, text_of};
use std::path::Path;
use std::process::Command;

const GUIDE: &str = include_str!("../../../docs/GUIDE.md");

/// The indented blocks of the guide; empty lines between indented ones belong to them.
fn blocks() -> Vec<Vec<&'static str>> {
    let mut blocks: Vec<Vec<&str>> = vec![vec![]];
    let mut lines = GUIDE.lines().peekable();
    while let Some(line) = lines.next() {
        let goes_on = line.is_empty() && lines.peek().is_some_and(|next| next.starts_with("    "));
        let block = blocks.last_mut().expect("never empty");
        match line.strip_prefix("    ") {
            Some(line) => block.push(line),
            None if goes_on && !block.is_empty() => block.push(""),
            None => blocks.push(vec![]),
        }
    }
    blocks.retain(|block| !block.is_empty());
    blocks
}

fn is_installed(prover: &str) -> bool {
    Command::new(prover).arg("--version").output().is_ok()
}

#[test]
fn answers_are_those_shown() {
    let mut compared = 0;
    for block in blocks() {
        let Some(command) = block[0].strip_prefix("$ sifthorma ") else {
            continue;
        };
        let words: Vec<&str> = command.split_whitespace().collect();
        if words[0] == "press" {
            continue;
        }
        // provers are optional
        if words[0] == "discharge" && !is_installed("z3") && !is_installed("cvc5") {
            continue;
        }
        let answer = run(&words).output;
        let lines: Vec<&str> = answer.lines().collect();
        assert!(is_shown(&lines, &block[1..]), "{command}:\n{answer}");
        compared += 1;
    }
    assert!(compared >= 10, "{compared} commands");
}

/// A session at the bench: what is typed behind its prompts gives the lines that are shown. The log goes where tests write.
#[test]
fn sessions_are_those_shown() {
    let path = Path::new(env!("CARGO_TARGET_TMPDIR")).join("guide_run.log");
    let path = path.to_str().expect("UTF-8");
    let mut played = 0;
    for block in blocks() {
        let Some(command) = block[0].strip_prefix("$ sifthorma press ") else {
            continue;
        };
        // the file of an earlier run of this test
        let _ = std::fs::remove_file(path);
        let words: Vec<&str> = ["press"].into_iter().chain(command.split(' ')).collect();
        let session: Vec<String> = block[1..]
            .iter()
            .map(|line| line.replace("run.log", path))
            .collect();
        let session: Vec<&str> = session.iter().map(String::as_str).collect();
        let ran = play(&words, &session);
        let lines: Vec<&str> = ran.output.lines().collect();
        assert!(is_shown(&lines, &session), "{command}:\n{}", ran.output);
        assert_eq!((ran.message.as_str(), ran.status), ("", Some(0)));
        played += 1;
    }
    assert_eq!(played, 1);
}

/// A line without its comment.
fn typed(line: &str) -> &str {
    line.split("//").next().unwrap_or("").trim_end()
}

/// The lines of a text in the notation, without comments and empty lines.
fn lines_of(text: &str) -> Vec<&str> {
    text.lines()
        .map(typed)
        .filter(|line| !line.is_empty())
        .collect()
}

/// Texts in the notation: the counter whole, parts of other models line by line.
#[test]
fn texts_are_those_of_the_models() {
    let models = ["counter.eb", "placing_head.eb", "free_list.eb"].map(text_of);
    let is_text =
        |block: &&Vec<&str>| block[0].starts_with("context ") || block[0].starts_with("machine ");
    let blocks = blocks();
    let texts: Vec<String> = blocks
        .iter()
        .filter(is_text)
        .map(|block| block.join("\n"))
        .collect();
    assert_eq!(texts.len(), models.len());
    assert_eq!(lines_of(&texts[0]), lines_of(&models[0]));
    for (text, model) in texts.iter().zip(&models).skip(1) {
        let known = lines_of(model);
        for line in lines_of(text) {
            assert!(known.contains(&line), "{line}");
        }
    }
}

/// The log of the free list, whole.
#[test]
fn the_log_is_that_of_the_model() {
    let blocks = blocks();
    let is_log = |block: &&Vec<&str>| block[0].starts_with("INITIALISATION:");
    let logs: Vec<String> = blocks
        .iter()
        .filter(is_log)
        .map(|block| block.join("\n"))
        .collect();
    assert_eq!(logs.len(), 1);
    assert_eq!(lines_of(&logs[0]), lines_of(&text_of("free_list.log")));
}

/// The table that shows a sequent as rows, as mathematics and in SMT-LIB.
#[test]
fn one_sequent_is_shown_three_times() {
    let table = GUIDE
        .lines()
        .skip_while(|line| *line != "| rows | mathematics | SMT-LIB |");
    let table = table.skip(2).take_while(|line| line.starts_with('|'));
    let cells = |line: &str| {
        let line = line.replace("\\|", "\u{0}");
        let cells: Vec<String> = line
            .split('|')
            .map(|cell| cell.trim().trim_matches('`').replace('\u{0}', "|"))
            .collect();
        [cells[1].clone(), cells[2].clone(), cells[3].clone()]
    };
    let table: Vec<[String; 3]> = table.map(cells).collect();
    let column = |n: usize| table.iter().map(move |cells| cells[n].as_str());
    assert_eq!(column(0).collect::<Vec<_>>(), rows_of_sequent(29));
    let shown = run(&["show", "models/counter.eb", "29"]).output;
    let entries = shown.lines().filter_map(|line| line.strip_prefix("    "));
    let entries = entries.map(|line| line.replacen("  ", ": ", 1));
    let goal = shown.lines().last().expect("a goal").trim().to_string();
    let mathematics: Vec<String> = entries.chain([goal]).collect();
    assert_eq!(column(1).skip(2).collect::<Vec<_>>(), mathematics);
    let script = run(&["smt", "models/counter.eb", "29"]).output;
    let asserted = script.lines().filter(|line| line.starts_with("(assert"));
    let asserted: Vec<&str> = asserted
        .filter_map(|line| line.split(" ; ").next())
        .collect();
    assert_eq!(column(2).skip(2).collect::<Vec<_>>(), asserted);
}

/// The rows of a sequent of the counter, with one space between their numbers.
fn rows_of_sequent(k: usize) -> Vec<String> {
    let printed = run(&["print", "models/counter.eb"]).output;
    let rows = printed
        .lines()
        .map(|row| row.split_whitespace().collect::<Vec<_>>().join(" "));
    let mut number = 0;
    let mut wanted = Vec::new();
    for row in rows {
        number += usize::from(row.starts_with("80 "));
        if number == k {
            wanted.push(row);
        }
    }
    wanted
}
