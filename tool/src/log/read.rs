//! The text of a log laid out as rows: a line for each step, its event and what it logs.

use super::scan::{Scanner, Token};
use super::shape::{Logged, Shape, Shapes};
use super::{row, STEP, VALUE};
use crate::notation::token::quoted;
use crate::notation::Mistake;
use crate::rows::{fits, push_row, Row, ROW_BYTES};
use std::collections::BTreeMap;

type Read<T> = Result<T, Mistake>;

/// Where a step, or a row by itself, begins: its first row and the line of the text, counted from 1.
pub struct Mark {
    pub row: usize,
    pub line: usize,
}

pub struct LaidOut {
    pub bytes: Vec<u8>,
    pub marks: Vec<Mark>,
}

/// The rows of a text.
pub fn lay_out(text: &str, shapes: &Shapes) -> Read<LaidOut> {
    let mut reader = Reader {
        scanner: Scanner::new(text)?,
        shapes,
        last: vec![None; shapes.identifiers],
        bytes: Vec::new(),
    };
    let mut marks = Vec::new();
    let (mut line, mut seen) = (1, 0);
    while reader.scanner.token != Token::End {
        let at = reader.scanner.at;
        line += text[seen..at].matches('\n').count();
        seen = at;
        let row = reader.bytes.len() / ROW_BYTES + 1;
        marks.push(Mark { row, line });
        reader.item()?;
    }
    let bytes = reader.bytes;
    Ok(LaidOut { bytes, marks })
}

struct Reader<'a> {
    scanner: Scanner<'a>,
    shapes: &'a Shapes,
    /// The values that were logged last, by identifier number less one.
    last: Vec<Option<i64>>,
    bytes: Vec<u8>,
}

/// A row of a step, and whether it was typed by its name.
struct Entry {
    row: Row,
    named: bool,
    at: usize,
}

impl Reader<'_> {
    /// A step, or a row by itself.
    fn item(&mut self) -> Read<()> {
        match self.scanner.token {
            Token::Number(..) => {
                let row = self.row()?;
                self.push(row);
                Ok(())
            }
            Token::Name(name) => {
                let shapes = self.shapes;
                let Some(shape) = shapes.named(name) else {
                    let message = format!(
                        "the refinement has no event {}; values stand behind an event and `:`",
                        quoted(name)
                    );
                    return Err(Mistake::new(self.scanner.at, &message));
                };
                self.scanner.go_on()?;
                self.step(shape)
            }
            _ => self
                .scanner
                .expected("an event, or the four numbers of a row"),
        }
    }

    /// What stands behind the name of an event: nothing, or a colon and the values that are logged.
    fn step(&mut self, shape: &Shape) -> Read<()> {
        let mut entries = Vec::new();
        let mut goes_on = self.scanner.take(Token::Colon)?;
        while goes_on {
            let at = self.scanner.at;
            if self.scanner.take(Token::Rest)? {
                entries = self.completed(shape, entries, at)?;
                break;
            }
            entries.push(self.entry(shape)?);
            goes_on = self.scanner.take(Token::Comma)?;
        }
        self.push(row(STEP, shape.event, 0));
        for entry in entries {
            self.push(entry.row);
        }
        Ok(())
    }

    /// A name and its value, or the four numbers of a row.
    fn entry(&mut self, shape: &Shape) -> Read<Entry> {
        let at = self.scanner.at;
        let Token::Name(name) = self.scanner.token else {
            let row = self.row()?;
            let named = false;
            return Ok(Entry { row, named, at });
        };
        let Some(logged) = shape.named(name) else {
            let (name, event) = (quoted(name), quoted(&shape.name));
            let message = format!("{name} is nothing that a step of {event} logs");
            return Err(Mistake::new(at, &message));
        };
        self.scanner.go_on()?;
        if !self.scanner.take(Token::Equals)? {
            return self.scanner.expected("`=` after the name");
        }
        let value = value(&mut self.scanner, logged)?;
        Ok(Entry {
            row: row(VALUE, logged.number, value),
            named: true,
            at,
        })
    }

    /// A row as its four numbers.
    fn row(&mut self) -> Read<Row> {
        let mut next = || number(&mut self.scanner);
        Ok(Row {
            tag: next()?,
            a: next()?,
            b: next()?,
            c: next()?,
        })
    }

    /// All that a step logs, in order: what is named, and the values logged last of the variables that aren't.
    fn completed(&self, shape: &Shape, entries: Vec<Entry>, at: usize) -> Read<Vec<Entry>> {
        let mut named: BTreeMap<i64, i64> = BTreeMap::new();
        for entry in entries {
            let once = entry.named && named.insert(entry.row.a, entry.row.b).is_none();
            if !once {
                let message = "`..` completes a step of named values, each named once";
                return Err(Mistake::new(entry.at, message));
            }
        }
        let complete = |logged: &Logged| {
            let kept = self.last[logged.number as usize - 1].filter(|_| logged.variable);
            let Some(value) = named.get(&logged.number).copied().or(kept) else {
                let name = quoted(&logged.name);
                let message = format!("{name} has no value that it could keep; it must be named");
                return Err(Mistake::new(at, &message));
            };
            Ok(Entry {
                row: row(VALUE, logged.number, value),
                named: true,
                at,
            })
        };
        shape.logged.iter().map(complete).collect()
    }

    fn push(&mut self, row: Row) {
        remember(&mut self.last, row);
        push_row(&mut self.bytes, row);
    }
}

/// A value of an identifier.
fn value(scanner: &mut Scanner, logged: &Logged) -> Read<i64> {
    let value = match scanner.token {
        Token::Name("TRUE") if logged.boolean => 1,
        Token::Name("FALSE") if logged.boolean => 0,
        Token::Number(..) => return number(scanner),
        _ if logged.boolean => return scanner.expected("TRUE or FALSE"),
        _ => return scanner.expected("a number"),
    };
    scanner.go_on()?;
    Ok(value)
}

/// A number; one that is too large for its columns is laid out so that the library refuses it.
fn number(scanner: &mut Scanner) -> Read<i64> {
    let Token::Number(digits, negative) = scanner.token else {
        return scanner.expected("a number");
    };
    let number = digits.parse().unwrap_or(i64::MAX);
    scanner.go_on()?;
    Ok(if negative { -number } else { number })
}

/// The value of an identifier in a text by itself: one of its type that a row can hold.
pub fn read_value(text: &str, logged: &Logged) -> Read<i64> {
    let mut scanner = Scanner::new(text)?;
    let value = value(&mut scanner, logged)?;
    if scanner.token != Token::End {
        return scanner.expected("one value");
    }
    let (allowed, wanted) = match logged.boolean {
        true => (value == 0 || value == 1, "TRUE or FALSE"),
        false => (fits(value), "a number from −2147483648 to 2147483647"),
    };
    let wrong = || Mistake::new(0, &format!("expected {wanted}, found {}", quoted(text)));
    allowed.then_some(value).ok_or_else(wrong)
}

/// Keeps the value of a row 91 as the one that its identifier had last.
pub fn remember(last: &mut [Option<i64>], row: Row) {
    let place = usize::try_from(row.a).ok().and_then(|n| n.checked_sub(1));
    let value = place.and_then(|place| last.get_mut(place));
    if let (VALUE, Some(value)) = (row.tag, value) {
        *value = Some(row.b);
    }
}
