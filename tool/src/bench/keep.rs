//! The run of a bench as a log: rows that the library accepts, in a file.

use super::{words, Bench};
use crate::evaluate::Value;
use crate::library;
use crate::log::{counted, STEP, VALUE};
use crate::replay::words::numbered;
use crate::rows::{fits, push_row, Row};
use crate::source::Source;
use std::fs::File;
use std::io::{self, ErrorKind, Write};

/// The bytes of a run's rows; an error names the first value that a row can't hold, and its step.
pub fn bytes_of(source: &Source, rows: &[Row]) -> Result<Vec<u8>, String> {
    let mut bytes = Vec::new();
    let mut steps = 0;
    for &row in rows {
        steps += usize::from(row.tag == STEP);
        if row.tag == VALUE && !fits(row.b) {
            return Err(too_wide(source, row, steps - 1));
        }
        push_row(&mut bytes, row);
    }
    Ok(bytes)
}

/// A value that a row can't hold, after this step.
fn too_wide(source: &Source, row: Row, step: usize) -> String {
    let name = source.names.own_name(row.a as usize);
    let (value, step) = (Value::Integer(row.b.into()).shown(), numbered(step));
    format!("{name} is {value} after {step}, and a row of a log holds numbers from −2147483648 to 2147483647")
}

impl Bench<'_> {
    /// Writes the run as a log, over a file that is there only if told so. The answer says what was written, an error why
    /// nothing was.
    pub fn keep(&mut self, path: &str, over: bool) -> Result<String, String> {
        let bytes = bytes_of(self.source, &self.rows)?;
        let steps = library::replay(&self.source.bytes, &bytes).map_err(|refusal| {
            words::refused_log(self.source, self.shapes, bytes.clone(), refusal)
        })?;
        write_file(path, &bytes, over).map_err(|error| match error.kind() {
            ErrorKind::AlreadyExists => {
                format!("{path} is there already; `log! {path}` writes over it")
            }
            _ => format!("{path}: cannot write it: {error}"),
        })?;
        self.kept = self.rows.len();
        Ok(format!("{path}: written: {}", counted(steps)))
    }
}

fn write_file(path: &str, bytes: &[u8], over: bool) -> io::Result<()> {
    let mut file = match over {
        true => File::create(path)?,
        false => File::create_new(path)?,
    };
    file.write_all(bytes)
}
