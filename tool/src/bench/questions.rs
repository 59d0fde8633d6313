//! Questions for the values that a step needs, each asked until its answer is one.

use super::choice::question;
use super::lines::Lines;
use crate::log::read::read_value;
use crate::log::shape::Logged;
use std::io::Result;

/// The line that ends questions without an answer, and how that is said.
pub struct WayOut {
    line: &'static str,
    said: &'static str,
}

/// At the start there is nothing to go back to.
pub const LEAVE: WayOut = WayOut {
    line: "quit",
    said: "`quit` leaves",
};
pub const GIVE_UP: WayOut = WayOut {
    line: "",
    said: "an empty line gives the event up",
};

/// The answers to all questions by identifier; nothing if the way out is taken or the input ends.
pub fn ask_all(
    lines: &mut Lines,
    asked: &[&Logged],
    way_out: &WayOut,
) -> Result<Option<Vec<(i64, i64)>>> {
    let mut answers = Vec::new();
    for one in asked {
        match ask(lines, one, way_out)? {
            Some(value) => answers.push((one.number, value)),
            None => return Ok(None),
        }
    }
    Ok(Some(answers))
}

fn ask(lines: &mut Lines, asked: &Logged, way_out: &WayOut) -> Result<Option<i64>> {
    let prompt = format!("{}? ", question(asked));
    while let Some(line) = lines.ask(&prompt)? {
        if line == way_out.line {
            break;
        }
        match read_value(&line, asked) {
            Ok(value) => return Ok(Some(value)),
            Err(mistake) => lines.say(&format!("{}; {}", mistake.message, way_out.said))?,
        }
    }
    Ok(None)
}
