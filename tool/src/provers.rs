//! Provers as programs: found by name, given SMT-LIB on standard input, stopped after a time.

use std::io::{Read, Write};
use std::process::{Child, ChildStdout, Command, Stdio};
use std::sync::mpsc::{sync_channel, RecvTimeoutError, SyncSender};
use std::time::{Duration, Instant};

/// A prover: its name, and the command that reads SMT-LIB from standard input.
#[derive(Clone, Debug)]
pub struct Prover {
    pub name: String,
    command: Vec<String>,
}

/// The provers whose options are known.
const KNOWN: [(&str, &[&str]); 2] = [("z3", &["-in"]), ("cvc5", &["--lang=smt2", "--quiet"])];

/// More bytes than an answer has.
const MOST_PRINTED: usize = 1 << 20;

/// What to do where no prover is found.
pub const HOW_TO_GET: &str = "install z3 (https://github.com/Z3Prover/z3, `apt install z3` on Debian) or cvc5 (https://cvc5.github.io, `apt install cvc5`),
or name one by --prover COMMAND; COMMAND reads SMT-LIB 2.6 from standard input";

impl Prover {
    /// A known prover, by its name or path, with the options that it needs, or a command with its own.
    pub fn named(text: &str) -> Prover {
        let words: Vec<String> = text.split_whitespace().map(str::to_string).collect();
        let known = KNOWN
            .iter()
            .find(|(name, _)| text.rsplit('/').next() == Some(name));
        let options = known.map_or(&[][..], |(_, options)| options);
        let options = options.iter().map(|option| option.to_string());
        Prover {
            name: text.to_string(),
            command: words.into_iter().chain(options).collect(),
        }
    }

    /// The known provers that this machine has.
    pub fn installed() -> Vec<Prover> {
        let provers = KNOWN.iter().map(|(name, _)| Prover::named(name));
        provers
            .filter(|prover| prover.try_start().is_ok())
            .collect()
    }

    /// Starts the prover and stops it again; an error says why it can't be started.
    pub fn try_start(&self) -> std::io::Result<()> {
        let mut child = self.start()?;
        child.kill()?;
        child.wait().map(|_| ())
    }

    fn start(&self) -> std::io::Result<Child> {
        let program = self.command.first().map_or("", String::as_str);
        Command::new(program)
            .args(self.command.iter().skip(1))
            .stdin(Stdio::piped())
            .stdout(Stdio::piped())
            .stderr(Stdio::null())
            .spawn()
    }

    /// What the prover prints for a script; what it has printed by then if it takes longer than `limit`. One that ends
    /// without a word has that said for it.
    pub fn ask(&self, script: &str, limit: Duration) -> std::io::Result<String> {
        let end = Instant::now() + limit;
        let mut child = self.start()?;
        let (input, output) = (child.stdin.take(), child.stdout.take());
        let script = script.to_string();
        // the threads aren't waited for: what the prover itself has started can hold the pipes open
        std::thread::spawn(move || input.map(|mut input| input.write_all(script.as_bytes())));
        let (sender, pieces) = sync_channel(1);
        std::thread::spawn(move || output.map(|output| send_pieces(output, sender)));
        let mut printed = Vec::new();
        while printed.len() < MOST_PRINTED {
            let left = end.saturating_duration_since(Instant::now());
            match pieces.recv_timeout(left) {
                Ok(piece) => printed.extend(piece),
                Err(RecvTimeoutError::Disconnected) if printed.is_empty() => {
                    printed.extend(b"it ended without an answer");
                    break;
                }
                Err(_) => break,
            }
        }
        // it has closed its output, or is late, or prints without end
        child.kill()?;
        child.wait()?;
        Ok(String::from_utf8_lossy(&printed).into_owned())
    }
}

/// Sends what can be read, piece by piece, as long as it is received.
fn send_pieces(mut output: ChildStdout, sender: SyncSender<Vec<u8>>) {
    let mut piece = [0; 4096];
    while let Ok(length @ 1..) = output.read(&mut piece) {
        if sender.send(piece[..length].to_vec()).is_err() {
            return;
        }
    }
}
