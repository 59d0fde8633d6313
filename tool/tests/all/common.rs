//! What several tests share.

use sifthorma::library::check;
use sifthorma::sequents::{Answers, Spelled};
use sifthorma::source::Source;
use std::io::{ErrorKind, Write};
use std::path::{Path, PathBuf};
use std::process::{Command, Output, Stdio};

/// Runs on a stack of its own: formulas are walked by recursion, and the library asks for some too.
pub fn on_a_stack<T: Send>(run: impl FnOnce() -> T + Send) -> T {
    std::thread::scope(|scope| {
        let thread = std::thread::Builder::new().stack_size(64 << 20);
        let running = thread.spawn_scoped(scope, run).expect("a thread");
        running.join().expect("no panic")
    })
}

/// The bytes of a file of ../models.
pub fn model(file: &str) -> Vec<u8> {
    let path = Path::new(env!("CARGO_MANIFEST_DIR"))
        .join("../models")
        .join(file);
    std::fs::read(path).expect("a model")
}

/// The files of ../models whose names end so, in order.
pub fn models(end: &str) -> Vec<String> {
    let folder = Path::new(env!("CARGO_MANIFEST_DIR")).join("../models");
    let files = std::fs::read_dir(folder).expect("the models");
    let names = files.map(|file| file.expect("a file").file_name());
    let names = names.map(|name| name.into_string().expect("a name in UTF-8"));
    let mut names: Vec<String> = names.filter(|name| name.ends_with(end)).collect();
    names.sort();
    names
}

/// The model in a text of the notation, or its mistake.
pub fn read(text: &str) -> Result<Source, String> {
    Source::of("m.eb", text.as_bytes())
}

/// The text of a file of ../models.
pub fn text_of(file: &str) -> String {
    String::from_utf8(model(file)).expect("UTF-8")
}

/// A text with one place changed.
pub fn edited(text: &str, from: &str, to: &str) -> String {
    assert_eq!(text.matches(from).count(), 1, "`{from}` stands once");
    text.replace(from, to)
}

/// The sequents of an accepted model, spelled out.
pub fn spelled(source: &Source) -> Vec<Spelled> {
    let count = check(&source.bytes).expect("accepted");
    let mut answers = Answers::new(&source.bytes);
    let sequents = answers.all(count).expect("sequents 1 to the count");
    let spelled = sequents.into_iter().map(|one| answers.spell(one));
    spelled.map(|one| one.expect("entries")).collect()
}

/// What a run of the program wrote, and its exit status.
#[derive(Debug, PartialEq)]
pub struct Ran {
    pub output: String,
    pub message: String,
    pub status: Option<i32>,
}

impl Ran {
    pub fn of(output: Output) -> Ran {
        Ran {
            output: String::from_utf8(output.stdout).expect("UTF-8"),
            message: String::from_utf8(output.stderr).expect("UTF-8"),
            status: output.status.code(),
        }
    }
}

/// The program with these words, to be run in the repository's root.
pub fn program(words: &[&str]) -> Command {
    let mut command = Command::new(env!("CARGO_BIN_EXE_sifthorma"));
    command.args(words);
    command.current_dir(Path::new(env!("CARGO_MANIFEST_DIR")).join(".."));
    command
}

pub fn run(words: &[&str]) -> Ran {
    Ran::of(program(words).output().expect("the program runs"))
}

/// Runs the program with this on its standard input.
pub fn run_on(words: &[&str], input: &[u8]) -> Ran {
    let mut command = program(words);
    command.stdin(Stdio::piped()).stdout(Stdio::piped());
    let mut child = command.stderr(Stdio::piped()).spawn().expect("it runs");
    let written = child.stdin.take().expect("an input").write_all(input);
    // a program that ends early doesn't read all of it
    if let Err(error) = written {
        assert_eq!(error.kind(), ErrorKind::BrokenPipe);
    }
    Ran::of(child.wait_with_output().expect("it ends"))
}

/// What is typed behind the prompt of a session's line, if there is one: prompts are `> ` and questions.
pub fn typed_at_prompt(line: &str) -> Option<&str> {
    let asked = || line.split_once("? ").map(|(_, typed)| typed);
    line.strip_prefix("> ").or_else(asked)
}

/// Runs the program on what is typed in a session.
pub fn play(words: &[&str], session: &[&str]) -> Ran {
    let typed = session.iter().filter_map(|line| typed_at_prompt(line));
    let typed: String = typed.map(|line| format!("{line}\n")).collect();
    run_on(words, typed.as_bytes())
}

/// Whether these lines are those shown, where `..` stands for any lines.
pub fn is_shown(lines: &[&str], shown: &[&str]) -> bool {
    match shown.split_first() {
        None => lines.is_empty(),
        Some((&"..", rest)) => (0..=lines.len()).any(|skipped| is_shown(&lines[skipped..], rest)),
        Some((line, rest)) => lines.first() == Some(line) && is_shown(&lines[1..], rest),
    }
}

/// A file for a test, under a name that no other test takes.
pub fn file(name: &str, contents: &str) -> PathBuf {
    let path = Path::new(env!("CARGO_TARGET_TMPDIR")).join(name);
    std::fs::write(&path, contents).expect("a file");
    path
}
