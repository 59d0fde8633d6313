//! A recorded run: rows 90 (event) and 91 (identifier, value), byte for byte or as a text.

pub mod read;
pub mod scan;
pub mod shape;
pub mod write;

use crate::notation::place;
use crate::rows::{read_row, Row, ROW_BYTES};
use crate::source::{bytes_of, utf8};
use read::{lay_out, Mark};
use shape::Shapes;

/// The tags of a log's rows.
pub const STEP: i64 = 90;
pub const VALUE: i64 = 91;

/// A row of a log; its last column isn't used.
pub fn row(tag: i64, a: i64, b: i64) -> Row {
    Row { tag, a, b, c: 0 }
}

/// A log as its file gives it.
pub struct Log {
    pub file: String,
    pub bytes: Vec<u8>,
    /// Of a text, where its steps begin.
    marks: Option<Vec<Mark>>,
}

impl Log {
    /// Reads a file, or standard input for `-`.
    pub fn read(file: &str, shapes: &Shapes) -> Result<Log, String> {
        Log::of(file, bytes_of(file)?, shapes)
    }

    /// The log in these bytes; those of a text are laid out as rows.
    pub fn of(file: &str, bytes: Vec<u8>, shapes: &Shapes) -> Result<Log, String> {
        if !is_text(file, &bytes) {
            return Ok(Log::of_rows(file, bytes));
        }
        let text = utf8(file, &bytes)?;
        let laid_out = lay_out(text, shapes).map_err(|mistake| {
            let (line, column) = place(text, mistake.at);
            format!("{file}:{line}:{column}: {}", mistake.message)
        })?;
        Ok(Log {
            file: file.to_string(),
            bytes: laid_out.bytes,
            marks: Some(laid_out.marks),
        })
    }

    /// The log in these bytes, which are rows or should be.
    pub fn of_rows(file: &str, bytes: Vec<u8>) -> Log {
        Log {
            file: file.to_string(),
            bytes,
            marks: None,
        }
    }

    /// The file with the line of a row, counted from 1; of a text, the line where its step begins.
    pub fn place(&self, row: usize) -> String {
        let line = match &self.marks {
            None => row,
            Some(marks) => {
                let after = marks.partition_point(|mark| mark.row <= row);
                let mark = after.checked_sub(1).and_then(|place| marks.get(place));
                mark.filter(|_| row > 0).map_or(0, |mark| mark.line)
            }
        };
        match line {
            0 => self.file.clone(),
            _ => format!("{}:{line}", self.file),
        }
    }

    /// The bytes of a row, counted from 1; a torn one is shorter.
    pub fn row_bytes(&self, row: usize) -> &[u8] {
        let place = row.wrapping_sub(1);
        self.bytes.chunks(ROW_BYTES).nth(place).unwrap_or(&[])
    }

    /// A row, counted from 1, if it is in the row form.
    pub fn row(&self, row: usize) -> Option<Row> {
        read_row(self.row_bytes(row))
    }

    /// How many rows there are, a torn one counted too.
    pub fn rows(&self) -> usize {
        self.bytes.len().div_ceil(ROW_BYTES)
    }
}

/// A number of steps, in words.
pub fn counted(steps: u64) -> String {
    match steps {
        1 => "1 step".to_string(),
        _ => format!("{steps} steps"),
    }
}

/// A text has a name in .txt, or begins with a letter or a comment (/); rows begin with a space or a digit.
fn is_text(file: &str, bytes: &[u8]) -> bool {
    let bytes = bytes.strip_prefix(b"\xEF\xBB\xBF").unwrap_or(bytes);
    let bytes = bytes.trim_ascii_start();
    let start = String::from_utf8_lossy(&bytes[..bytes.len().min(4)]);
    let first = start.chars().next();
    file.ends_with(".txt") || first.is_some_and(|c| c.is_alphabetic() || "/_".contains(c))
}
