//! The program `sifthorma`: runs a command, writes what it answers, and ends with its status.

use sifthorma::commands::{answer, unwritten};
use std::io::{stderr, stdout, Write};
use std::process::ExitCode;

/// Formulas are walked by recursion, and the library asks for a stack of its own: this is room for both.
const STACK: usize = 256 << 20;

fn main() -> ExitCode {
    let command = std::thread::Builder::new().stack_size(STACK).spawn(run);
    match command.map(|command| command.join()) {
        Ok(Ok(status)) => ExitCode::from(status),
        _ => ExitCode::from(2),
    }
}

/// The exit status.
fn run() -> u8 {
    let words = std::env::args_os().skip(1);
    let words: Vec<String> = words
        .map(|word| word.to_string_lossy().into_owned())
        .collect();
    let words: Vec<&str> = words.iter().map(String::as_str).collect();
    let (output, message, status) = match answer(&words) {
        Ok(output) => (output, String::new(), 0),
        Err(ending) => (ending.output, ending.message, ending.status),
    };
    let mut out = stdout().lock();
    let written = out.write_all(&output).and_then(|()| out.flush());
    let (message, status) = match written.map_err(unwritten) {
        Ok(()) => (message, status),
        Err(ending) => (ending.message, ending.status),
    };
    if !message.is_empty() {
        let _ = writeln!(stderr(), "{}", message.trim_end());
    }
    status
}
