//! Lines that are asked for and read, at a terminal or in a pipe.

use std::io::{BufRead, Result, Write};

/// Where lines are read, and where prompts and answers are written.
pub struct Lines<'a> {
    input: &'a mut dyn BufRead,
    output: &'a mut dyn Write,
    /// Whether what is read is written too, as a terminal shows what is typed.
    echo: bool,
    ended: bool,
}

impl<'a> Lines<'a> {
    pub fn new(input: &'a mut dyn BufRead, output: &'a mut dyn Write, echo: bool) -> Lines<'a> {
        Lines {
            input,
            output,
            echo,
            ended: false,
        }
    }

    /// Writes a text, which ends its last line.
    pub fn say(&mut self, text: &str) -> Result<()> {
        self.write(text.trim_end_matches('\n'))?;
        self.write("\n")
    }

    /// The next line, without the spaces around it. Nothing from the end of input on, or from where it can't be read.
    pub fn ask(&mut self, prompt: &str) -> Result<Option<String>> {
        if self.ended {
            return Ok(None);
        }
        self.write(prompt)?;
        let mut bytes = Vec::new();
        let read = self.input.read_until(b'\n', &mut bytes);
        self.ended = read.is_err() || bytes.is_empty();
        if self.ended {
            self.say("")?;
            return Ok(None);
        }
        let line = readable(String::from_utf8_lossy(&bytes).trim());
        if self.echo {
            self.say(&line)?;
        }
        Ok(Some(line))
    }

    fn write(&mut self, text: &str) -> Result<()> {
        self.output.write_all(text.as_bytes())?;
        self.output.flush()
    }
}

/// A line in which what would move a terminal's cursor, as an arrow key does, shows as a sign.
fn readable(line: &str) -> String {
    line.replace(|c: char| c.is_control(), "\u{FFFD}")
}
