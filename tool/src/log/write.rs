//! A log as a text: a line for each step, with what has changed; rows that names can't say stand as their four numbers.

use super::read::remember;
use super::shape::{Logged, Shape, Shapes};
use super::{STEP, VALUE};
use crate::rows::{read_row, Row, ROW_BYTES};

/// The text of a log. An error is the number of the first row that isn't in the row form.
pub fn write(log: &[u8], shapes: &Shapes) -> Result<String, usize> {
    let mut writer = Writer::new(shapes);
    for (bytes, number) in log.chunks(ROW_BYTES).zip(1_usize..) {
        writer.row(read_row(bytes).ok_or(number)?);
    }
    Ok(writer.whole())
}

/// The text of a log's rows, whose values may be wider than their columns.
pub fn write_rows(rows: &[Row], shapes: &Shapes) -> String {
    let mut writer = Writer::new(shapes);
    rows.iter().for_each(|&row| writer.row(row));
    writer.whole()
}

struct Writer<'a> {
    shapes: &'a Shapes,
    /// The values that were logged last, by identifier number less one.
    last: Vec<Option<i64>>,
    /// The rows of the step that isn't written yet.
    rows: Vec<Row>,
    text: String,
}

impl<'a> Writer<'a> {
    fn new(shapes: &'a Shapes) -> Writer<'a> {
        Writer {
            shapes,
            last: vec![None; shapes.identifiers],
            rows: Vec::new(),
            text: String::new(),
        }
    }

    /// Takes the next row: one of any other tag than 91 begins a step.
    fn row(&mut self, row: Row) {
        if row.tag != VALUE {
            self.end_step();
        }
        self.rows.push(row);
    }

    /// The text, with the last step.
    fn whole(mut self) -> String {
        self.end_step();
        self.text
    }

    fn end_step(&mut self) {
        let mut rows = std::mem::take(&mut self.rows);
        self.step(&rows);
        // its room serves the next step
        rows.clear();
        self.rows = rows;
    }

    /// A row of any other tag than 91, if there is one, and the rows 91 that follow it.
    fn step(&mut self, rows: &[Row]) {
        match rows.first().and_then(|&first| self.shape(first)) {
            Some(shape) => self.named(shape, &rows[1..]),
            None => {
                // a text begins with a letter or a comment
                if self.text.is_empty() && !rows.is_empty() {
                    self.text += "// rows as they are: tag, a, b, c\n";
                }
                let lines = rows.iter().map(|&row| numbers(row) + "\n");
                self.text.extend(lines);
            }
        }
        rows.iter().for_each(|&row| remember(&mut self.last, row));
    }

    /// The shape of the event in a row 90, if its name says the row.
    fn shape(&self, row: Row) -> Option<&'a Shape> {
        let shape = self.shapes.of_event(row.a)?;
        let plain = row.tag == STEP && row.b == 0 && row.c == 0;
        let named = self.shapes.named(&shape.name)?;
        (plain && named.event == row.a).then_some(shape)
    }

    /// A step of an event, with its rows 91.
    fn named(&mut self, shape: &Shape, rows: &[Row]) {
        let logged = shape.logged.iter().map(|one| (one.number, 0));
        let whole = logged.eq(rows.iter().map(|row| (row.a, row.c)));
        let mut entries: Vec<String> = Vec::new();
        for &row in rows {
            let one = shape.numbered(row.a).filter(|_| row.c == 0);
            match one {
                Some(one) if whole && self.is_kept(one, row) => {}
                Some(one) => entries.push(one.entry(row.b)),
                None => entries.push(numbers(row)),
            }
        }
        if entries.len() < rows.len() {
            entries.push("..".to_string());
        }
        self.text += &shape.name;
        if !entries.is_empty() {
            self.text += ": ";
            self.text += &entries.join(", ");
        }
        self.text += "\n";
    }

    /// Whether a variable has the value that was logged last.
    fn is_kept(&self, logged: &Logged, row: Row) -> bool {
        logged.variable && self.last[logged.number as usize - 1] == Some(row.b)
    }
}

/// The four numbers of a row.
fn numbers(row: Row) -> String {
    format!("{} {} {} {}", row.tag, row.a, row.b, row.c)
}
