//! Rows of 38 bytes: a tag in 4 columns, three numbers in 11 columns each, then byte 10.

pub const ROW_BYTES: usize = 38;
const TAG_COLUMNS: usize = 4;
const NUMBER_COLUMNS: usize = 11;

/// One row: its tag and its numbers.
#[derive(Clone, Copy, Debug, PartialEq, Eq)]
pub struct Row {
    pub tag: i32,
    pub a: i32,
    pub b: i32,
    pub c: i32,
}

impl Row {
    pub fn new(tag: i32, a: i32, b: i32, c: i32) -> Row {
        Row { tag, a, b, c }
    }
}

/// The number in these columns, or nothing if they aren't in the number form.
pub fn read_number(columns: &[u8]) -> Option<i32> {
    let start = columns.iter().position(|&byte| byte != b' ')?;
    let (negative, digits) = match &columns[start..] {
        [b'-', rest @ ..] => (true, rest),
        rest => (false, rest),
    };
    if digits.is_empty() || !digits.iter().all(u8::is_ascii_digit) {
        return None;
    }
    // No leading zero, and no minus before a zero.
    if digits[0] == b'0' && (negative || digits.len() > 1) {
        return None;
    }
    let size = digits
        .iter()
        .fold(0i64, |sum, &digit| sum * 10 + i64::from(digit - b'0'));
    i32::try_from(if negative { -size } else { size }).ok()
}

/// The row in these 38 bytes, or nothing if they aren't in the row form.
pub fn read_row(bytes: &[u8]) -> Option<Row> {
    if bytes.len() != ROW_BYTES || bytes[ROW_BYTES - 1] != 10 {
        return None;
    }
    let column = |n: usize| {
        let start = TAG_COLUMNS + n * NUMBER_COLUMNS;
        read_number(&bytes[start..start + NUMBER_COLUMNS])
    };
    Some(Row {
        tag: read_number(&bytes[..TAG_COLUMNS])?,
        a: column(0)?,
        b: column(1)?,
        c: column(2)?,
    })
}

/// Writes the number right-justified after spaces.
fn write_number(number: i32, columns: &mut [u8]) {
    let text = number.to_string();
    let start = columns.len() - text.len();
    columns[..start].fill(b' ');
    columns[start..].copy_from_slice(text.as_bytes());
}

/// Writes the row into the first 38 bytes. The tag must fit its 4 columns.
pub fn write_row(row: Row, out: &mut [u8]) {
    let (tag, rest) = out[..ROW_BYTES].split_at_mut(TAG_COLUMNS);
    write_number(row.tag, tag);
    for (n, number) in [row.a, row.b, row.c].into_iter().enumerate() {
        let start = n * NUMBER_COLUMNS;
        write_number(number, &mut rest[start..start + NUMBER_COLUMNS]);
    }
    rest[3 * NUMBER_COLUMNS] = 10;
}

/// The bytes of these rows, one after another.
pub fn bytes_of(rows: &[Row]) -> Vec<u8> {
    let mut bytes = vec![0; rows.len() * ROW_BYTES];
    for (row, out) in rows.iter().zip(bytes.chunks_mut(ROW_BYTES)) {
        write_row(*row, out);
    }
    bytes
}

/// Turns readable text into rows: four numbers a line (or before a `;`), `#` starts a comment.
pub fn layout(text: &str) -> Result<Vec<Row>, String> {
    let mut rows = Vec::new();
    for (n, line) in text.lines().enumerate() {
        let line = line.split('#').next().unwrap_or("");
        for piece in line.split(';').filter(|piece| !piece.trim().is_empty()) {
            rows.push(layout_row(piece).ok_or(format!("line {}: not four numbers", n + 1))?);
        }
    }
    Ok(rows)
}

fn layout_row(text: &str) -> Option<Row> {
    let numbers: Option<Vec<i32>> = text
        .split_whitespace()
        .map(|word| word.parse().ok())
        .collect();
    match numbers?[..] {
        [tag, a, b, c] if (-999..=9999).contains(&tag) => Some(Row::new(tag, a, b, c)),
        _ => None,
    }
}
