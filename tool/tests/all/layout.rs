//! Texts of rows against `models/layout`, byte for byte, and the line that each row comes from.

use crate::common::{model, models, on_a_stack, read, text_of};
use compare::generate::random::Random;
use sifthorma::formula::{operator, sign};
use sifthorma::library::check;
use sifthorma::notation::write::write;
use sifthorma::rows::{lay_out, read_rows, write_row};
use sifthorma::source::Source;
use sifthorma::table::tag;
use std::io::Write;
use std::process::{Command, Stdio};

/// What the script gives for a text.
fn by_script(text: &[u8]) -> Vec<u8> {
    let script = concat!(env!("CARGO_MANIFEST_DIR"), "/../models/layout");
    let mut command = Command::new("sh");
    command
        .arg(script)
        .stdin(Stdio::piped())
        .stdout(Stdio::piped());
    let mut child = command.spawn().expect("sh runs");
    let mut input = child.stdin.take().expect("a pipe");
    input.write_all(text).expect("the script reads");
    drop(input);
    let output = child.wait_with_output().expect("the script ends");
    assert!(output.status.success());
    output.stdout
}

fn shown(bytes: &[u8]) -> String {
    bytes.escape_ascii().to_string()
}

fn agrees(text: &[u8]) -> usize {
    let (table, lines) = lay_out(text);
    let script = by_script(text);
    assert_eq!(
        shown(&table),
        shown(&script),
        "the text was {}",
        shown(text)
    );
    assert_eq!(table.len(), 38 * lines.len());
    lines.len()
}

#[test]
fn models_are_laid_out_alike() {
    let rows = models(".txt").into_iter().map(|file| agrees(&model(&file)));
    let rows: Vec<usize> = rows.collect();
    assert!(
        rows.len() >= 5 && rows.iter().sum::<usize>() > 700,
        "{rows:?}"
    );
}

/// Words of every width, with bytes of every sort.
const WORDS: &[u8] = b"10 0 -7 2147483647 -2147483648 12345678901 9999 99999 123456789012 -12345678901234567890 007 +1 -0 \
ten * \\ %s $4 & \" 1\r \r \xC3\xA9 \xC3\xA9\xC3\xA9 \xC3\xA9\xC3\xA9\xC3\xA9\xC3\xA9\xC3\xA9\xC3\xA9 \xC3 \xFF\xFE \xEF\xBB\xBF \0 \
1\x0B\x0C\xA0";
const BLANKS: [&[u8]; 6] = [b" ", b" ", b"  ", b"\t", b" \t ", b""];
const ENDS: [&[u8]; 6] = [b"\n", b"\n", b"\r\n", b"\r\r\n", b"\n\n", b" \t\n"];
const COMMENTS: [&[u8]; 4] = [b"#", b"# 5 # 6\xFF", b"#\0\r", b"#\xEF\xBB\xBF10 2 1 0"];

/// A text of up to ten lines, of up to six words each.
fn any_text(random: &mut Random) -> Vec<u8> {
    let words: Vec<&[u8]> = WORDS.split(|&byte| byte == b' ').collect();
    let mut text = Vec::new();
    if random.one_in(4) {
        text.extend(b"\xEF\xBB\xBF");
    }
    for _ in 0..random.below(11) {
        text.extend(random.pick(&BLANKS));
        for _ in 0..random.pick(&[0, 1, 3, 4, 4, 4, 4, 5, 6]) {
            text.extend(random.pick(&words));
            text.extend(random.pick(&BLANKS));
        }
        if random.one_in(4) {
            text.extend(random.pick(&COMMENTS));
        }
        text.extend(random.pick(&ENDS));
    }
    if random.one_in(3) {
        text.pop();
    }
    text
}

#[test]
fn random_texts_are_laid_out_alike() {
    let rows = (0..250).map(|seed| agrees(&any_text(&mut Random::new(seed))));
    assert!(rows.sum::<usize>() > 700);
}

/// Every row holds the number of its line in column a.
#[test]
fn a_row_comes_from_its_line() {
    let mut found = 0;
    for seed in 0..200 {
        let mut random = Random::new(seed);
        let mut text = vec![];
        for line in 1..random.between(2, 40) {
            let end = random.pick(&["\n", "\r\n"]);
            let typed = match random.below(3) {
                0 => random.pick(&["", " ", "# 10 1 1 0", "\t# 5"]).to_string(),
                _ => format!("10 {line} 0 0{}", random.pick(&["", " ", " # 5", "\t"])),
            };
            text.extend((typed + end).into_bytes());
        }
        let source = Source::of("rows.txt", &text).expect("rows have no mistakes");
        let said = source.table.rows.iter().map(|row| row.a as usize);
        assert_eq!(said.collect::<Vec<_>>(), source.lines);
        found += source.lines.len();
    }
    assert!(found > 2000, "{found}");
}

/// What has to stand on the line that a row of a text in the notation comes from.
fn mark(source: &Source, place: usize) -> Vec<String> {
    let row = source.table.rows[place];
    let number = source
        .table
        .places(row.tag)
        .position(|other| other == place);
    let number = number.expect("a row of its tag");
    let name = |number: i64| source.names.own_name(number as usize);
    match (row.tag, row.a) {
        (tag::IDENTIFIER, _) => vec![source.names.own_name(number + 1)],
        (tag::NODE, operator::LITERAL) => vec![row.b.unsigned_abs().to_string()],
        (tag::NODE, operator::IDENTIFIER) => vec![name(row.b)],
        (tag::NODE, operator::AFTER) => vec![name(row.b) + "'"],
        (tag::NODE, operator::EQUAL) => vec!["=".to_string(), "≠".to_string()],
        (tag::NODE, operator::NOT) => vec!["¬".to_string(), "≠".to_string()],
        (tag::NODE, other) => vec![sign(other).to_string()],
        (tag::EVENT, _) => vec![format!("event {}", source.names.events[number])],
        (tag::VARIANT, _) => vec!["variant".to_string()],
        _ => vec![format!("@{} ", source.names.label(place))],
    }
}

fn assert_from_its_line(text: &str) {
    let lines: Vec<&str> = text.lines().collect();
    let source = read(text).expect("a text");
    assert_eq!(source.lines.len(), source.table.rows.len());
    for (place, &line) in source.lines.iter().enumerate() {
        let marks = mark(&source, place);
        let found = marks.iter().any(|mark| lines[line - 1].contains(mark));
        assert!(found, "line {line}: none of {marks:?}\n{text}");
    }
}

/// In models, without their margins too, and in the texts of generated tables, which number rows by themselves.
#[test]
fn a_row_of_the_notation_comes_from_its_line() {
    for file in models(".eb") {
        assert_from_its_line(&text_of(&file));
        assert_from_its_line(&text_of(&file).replace("  ", ""));
    }
    let mut count = 0;
    on_a_stack(|| {
        for seed in 0..600 {
            let table = compare::generate::table(seed);
            let source = Source::of("g.table", &table).expect("a table");
            if check(&source.bytes).is_ok() {
                assert_from_its_line(&write(&source.table, &source.names));
                count += 1;
            }
        }
    });
    assert!(count > 300, "{count}");
}

/// Rows of numbers at the edges, most of them with another byte somewhere, are read as the program in compare reads them.
#[test]
fn rows_are_read_in_the_row_form_alone() {
    let mut read = 0;
    for seed in 0..30_000 {
        let mut random = Random::new(seed);
        let mut number = || {
            let edges = [0, 1, -1, 9, 10, -10, i32::MAX, i32::MIN, i32::MAX - 1];
            random.pick(&edges)
        };
        let row = compare::rows::Row::new(number().rem_euclid(1000), number(), number(), number());
        let mut bytes = compare::rows::bytes_of(&[row]);
        if !random.one_in(4) {
            let place = random.below(38);
            bytes[place] = random.pick(b"  0129-+\n\r\t*\xFF");
        }
        let expected = compare::rows::read_row(&bytes);
        let rows = read_rows(&bytes);
        let found = rows.as_ref().map(|rows| (rows.len(), write_row(rows[0])));
        let expected = expected.map(|row| (1, compare::rows::bytes_of(&[row])));
        assert_eq!(found, expected, "{}", shown(&bytes));
        read += usize::from(found.is_some());
    }
    assert!((8000..22_000).contains(&read), "{read}");
    assert_eq!(read_rows(b"  10"), None);
}
