//! A file of any of the three forms: the notation, a text of rows, a table byte for byte.

use crate::names::Names;
use crate::notation::{layout, line_starts, parse, place};
use crate::rows::{lay_out, read_rows, write_row, ROW_BYTES};
use crate::table::Table;
use std::io::Read;

/// A model as its file gives it, accepted or not.
pub struct Source {
    pub file: String,
    /// The table's bytes.
    pub bytes: Vec<u8>,
    /// Its rows; none where one of them isn't in the row form.
    pub table: Table,
    pub names: Names,
    /// For each row the line of the file that it comes from.
    pub lines: Vec<usize>,
}

/// The forms of a file.
#[derive(Clone, Copy, Debug, PartialEq, Eq)]
pub enum Form {
    Notation,
    Rows,
    Table,
}

impl Form {
    /// The notation has a name in .eb, or begins with a letter or a comment (/); a text of rows begins with a comment (#) or
    /// has a name in .txt.
    pub fn of(file: &str, bytes: &[u8]) -> Form {
        let bytes = bytes.strip_prefix(b"\xEF\xBB\xBF").unwrap_or(bytes);
        let first = bytes.iter().find(|byte| !byte.is_ascii_whitespace());
        match first {
            _ if file.ends_with(".eb") => Form::Notation,
            Some(b'#') => Form::Rows,
            Some(letter) if letter.is_ascii_alphabetic() || *letter == b'/' => Form::Notation,
            _ if file.ends_with(".txt") => Form::Rows,
            _ => Form::Table,
        }
    }
}

/// The bytes of a file, or of standard input for `-`.
pub fn bytes_of(file: &str) -> Result<Vec<u8>, String> {
    let mut bytes = Vec::new();
    let read = match file {
        "-" => std::io::stdin().read_to_end(&mut bytes).map(|_| ()),
        _ => std::fs::read(file).map(|read| bytes = read),
    };
    read.map_err(|error| format!("{file}: cannot read it: {error}"))?;
    Ok(bytes)
}

/// The text in these bytes; an error says where they are none.
pub fn utf8<'a>(file: &str, bytes: &'a [u8]) -> Result<&'a str, String> {
    std::str::from_utf8(bytes).map_err(|error| {
        let before = String::from_utf8_lossy(&bytes[..error.valid_up_to()]);
        let (line, column) = place(&before, before.len());
        format!("{file}:{line}:{column}: the text isn't UTF-8 here")
    })
}

impl Source {
    /// Reads a file, or standard input for `-`. An error says which file, where, and what was expected.
    pub fn read(file: &str) -> Result<Source, String> {
        Source::of(file, &bytes_of(file)?)
    }

    /// The model in these bytes.
    pub fn of(file: &str, bytes: &[u8]) -> Result<Source, String> {
        let file = file.to_string();
        match Form::of(&file, bytes) {
            Form::Notation => Source::of_notation(file, bytes),
            Form::Rows => {
                let (table, lines) = lay_out(bytes);
                Ok(Source::of_table(file, table, lines))
            }
            Form::Table => {
                let lines = (1..=bytes.len().div_ceil(ROW_BYTES)).collect();
                Ok(Source::of_table(file, bytes.to_vec(), lines))
            }
        }
    }

    fn of_table(file: String, bytes: Vec<u8>, lines: Vec<usize>) -> Source {
        let rows = read_rows(&bytes).unwrap_or_default();
        let table = Table { rows };
        let names = Names::invented(&table);
        Source {
            file,
            bytes,
            table,
            names,
            lines,
        }
    }

    fn of_notation(file: String, bytes: &[u8]) -> Result<Source, String> {
        let text = utf8(&file, bytes)?;
        let laid_out = parse::parse(text).and_then(|text| layout::lay_out(&text));
        let laid_out = laid_out.map_err(|mistake| {
            let (line, column) = place(text, mistake.at);
            format!("{file}:{line}:{column}: {}", mistake.message)
        })?;
        let rows: Vec<_> = laid_out.lines.iter().map(|line| line.row).collect();
        let starts = line_starts(text);
        let line = |at: usize| starts.partition_point(|&start| start <= at);
        let lines = laid_out.lines.iter().map(|one| line(one.at));
        Ok(Source {
            file,
            bytes: rows.iter().flat_map(|&row| write_row(row)).collect(),
            lines: lines.collect(),
            table: Table { rows },
            names: laid_out.names,
        })
    }

    /// The file with the line of a row, where there is one.
    pub fn place(&self, row: usize) -> String {
        match row.checked_sub(1).and_then(|place| self.lines.get(place)) {
            Some(line) => format!("{}:{line}", self.file),
            None => self.file.clone(),
        }
    }
}
