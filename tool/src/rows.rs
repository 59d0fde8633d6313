//! Rows of 38 bytes: a tag in 4 columns, three numbers in 11 columns each, then byte 10; and texts of four numbers a line.

use std::io::Write;

pub const ROW_BYTES: usize = 38;

/// The widths of a row's columns.
const WIDTHS: [usize; 4] = [4, 11, 11, 11];

/// A row's tag and its numbers a, b, c.
#[derive(Clone, Copy, Debug, PartialEq, Eq)]
pub struct Row {
    pub tag: i64,
    pub a: i64,
    pub b: i64,
    pub c: i64,
}

/// The rows in these bytes, or nothing where some row can't be read.
pub fn read_rows(bytes: &[u8]) -> Option<Vec<Row>> {
    let whole = bytes.len().is_multiple_of(ROW_BYTES);
    whole.then(|| bytes.chunks(ROW_BYTES).map(read_row).collect())?
}

/// The row in these bytes, if they are in the row form.
pub fn read_row(bytes: &[u8]) -> Option<Row> {
    if bytes.len() != ROW_BYTES {
        return None;
    }
    let mut start = 0;
    let mut column = |width: usize| {
        let columns = std::str::from_utf8(&bytes[start..start + width]).ok()?;
        start += width;
        let number: i32 = columns.trim_start_matches(' ').parse().ok()?;
        Some(i64::from(number))
    };
    let [tag, a, b, c] = WIDTHS.map(&mut column);
    let row = Row {
        tag: tag?,
        a: a?,
        b: b?,
        c: c?,
    };
    // no plus sign, no leading zero, a line feed last
    (write_row(row) == bytes).then_some(row)
}

/// The bytes of a row.
pub fn write_row(row: Row) -> Vec<u8> {
    row_of_words([row.tag, row.a, row.b, row.c].map(|number| number.to_string().into_bytes()))
}

/// Whether a number is one that a row's columns hold.
pub fn fits(number: i64) -> bool {
    i32::try_from(number).is_ok()
}

/// Writes a row behind these bytes.
pub fn push_row(bytes: &mut Vec<u8>, row: Row) {
    let Row { tag, a, b, c } = row;
    match (-999..=9999).contains(&tag) && [a, b, c].into_iter().all(fits) {
        true => writeln!(bytes, "{tag:>4}{a:>11}{b:>11}{c:>11}").expect("room"),
        false => bytes.extend(write_row(row)),
    }
}

/// A row of words as they stand; one that is wider than its column shows as `*`, so that the row keeps its 38 bytes.
fn row_of_words(words: [Vec<u8>; 4]) -> Vec<u8> {
    let mut bytes = Vec::with_capacity(ROW_BYTES);
    for (word, width) in words.into_iter().zip(WIDTHS) {
        if word.len() > width {
            bytes.extend(vec![b'*'; width]);
        } else {
            bytes.extend(vec![b' '; width - word.len()]);
            bytes.extend(word);
        }
    }
    bytes.push(b'\n');
    bytes
}

/// Lays out a text of four numbers a line, as `models/layout` does: the table, and for each row the line that it stands on.
pub fn lay_out(text: &[u8]) -> (Vec<u8>, Vec<usize>) {
    let text = text.strip_prefix(b"\xEF\xBB\xBF").unwrap_or(text);
    let (mut table, mut lines) = (Vec::new(), Vec::new());
    for (place, line) in text.split(|&byte| byte == b'\n').enumerate() {
        let line = line.strip_suffix(b"\r").unwrap_or(line);
        let typed = line.split(|&byte| byte == b'#').next().unwrap_or(&[]);
        let words: Vec<&[u8]> = typed
            .split(|byte| b" \t".contains(byte))
            .filter(|word| !word.is_empty())
            .collect();
        if !words.is_empty() {
            let word = |n: usize| words.get(n).map_or(vec![], |word| word.to_vec());
            let last = words.get(3..).unwrap_or(&[]).join(&b' ');
            let row = row_of_words([word(0), word(1), word(2), last]);
            // awks differ on byte 0, so it shows as * there too
            table.extend(
                row.into_iter()
                    .map(|byte| if byte == 0 { b'*' } else { byte }),
            );
            lines.push(place + 1);
        }
    }
    (table, lines)
}
