//! The examples of ../docs/GUIDE.md: every reply that stands beside typed rows is the one that is given.

use crate::common::{rows, table};
use compare::rows::{bytes_of, layout, Row, ROW_BYTES};
use compare::services::{print, refusal_row, Answers};

const GUIDE: &str = include_str!("../../../docs/GUIDE.md");

fn model(name: &str) -> &'static str {
    match name {
        "L" => include_str!("../../../models/L.txt"),
        "counter" => include_str!("../../../models/counter.txt"),
        "placing_head" => include_str!("../../../models/placing_head.txt"),
        "free_list" => include_str!("../../../models/free_list.txt"),
        _ => panic!("no model {name}"),
    }
}

/// The indented blocks of the guide, line by line.
fn blocks() -> Vec<Vec<&'static str>> {
    let mut blocks = vec![vec![]];
    for line in GUIDE.lines() {
        match line.strip_prefix("    ") {
            Some(line) => blocks.last_mut().expect("never empty").push(line),
            None => blocks.push(vec![]),
        }
    }
    blocks.retain(|block| !block.is_empty());
    blocks
}

/// The numbers in a text.
fn numbers(text: &str) -> Vec<usize> {
    let words = text.split(|letter: char| !letter.is_ascii_digit());
    words.filter_map(|word| word.parse().ok()).collect()
}

/// The first line of an example: what is typed, the model's name, and what is done with it.
fn title(line: &str) -> Option<(&str, &str, &str)> {
    let (typed, comment) = line.split_once('#')?;
    let (name, rest) = comment.trim().split_once(", ")?;
    ["L", "counter", "placing_head", "free_list"]
        .contains(&name)
        .then_some((typed, name, rest))
}

/// The model's rows with the typed one put in, or some left out.
fn edited(typed: &str, name: &str, rest: &str) -> Option<Vec<u8>> {
    // Commas of the list "without rows 5, 6" stand before any colon.
    let places = numbers(rest.split(':').next()?);
    let mut lines: Vec<String> = laid_out(name);
    if rest.starts_with("row ") {
        lines[places[0] - 1] = typed.to_string();
    } else if rest.starts_with("after row ") {
        lines.insert(places[0], typed.to_string());
    } else if rest.starts_with("without row") {
        for place in places.iter().rev() {
            lines.remove(place - 1);
        }
    } else {
        return None;
    }
    let row = |line: &String| {
        let words: Vec<&str> = line.split_whitespace().collect();
        format!(
            "{:>4}{:>11}{:>11}{:>11}\n",
            words[0], words[1], words[2], words[3]
        )
    };
    Some(lines.iter().map(row).collect::<String>().into_bytes())
}

fn laid_out(name: &str) -> Vec<String> {
    let text = |row: &Row| format!("{} {} {} {}", row.tag, row.a, row.b, row.c);
    rows(model(name)).iter().map(text).collect()
}

/// The reply to "sequent k" or "entry j of sequent k".
fn asked(name: &str, rest: &str) -> Option<Vec<Row>> {
    let answers = Answers::of(&table(model(name)));
    let rows = match (rest.split(' ').next()?, &numbers(rest)[..]) {
        ("sequent", &[k]) => answers.sequent(k),
        ("entry", &[j, k]) => answers.entry(k, j),
        _ => return None,
    };
    Some(rows.unwrap_or_else(|refusal| vec![refusal_row(refusal)]))
}

#[test]
fn replies_are_those_given() {
    let (mut refused, mut written) = (0, 0);
    for block in blocks() {
        let Some((typed, name, rest)) = title(block[0]) else {
            continue;
        };
        let shown = layout(&block[1..].join("\n")).expect("rows");
        if let Some(bytes) = edited(typed, name, rest) {
            assert_eq!(print(&bytes), bytes_of(&shown), "{block:?}");
            refused += 1;
        } else {
            assert_eq!(asked(name, rest), Some(shown), "{block:?}");
            written += 1;
        }
    }
    assert_eq!((refused, written), (31, 14));
}

/// Rows of a block that isn't an example of a reply stand in one of the models.
#[test]
fn rows_quoted_from_models_stand_there() {
    let mut all = rows(model("counter"));
    all.extend(rows(model("placing_head")));
    all.extend(rows(model("free_list")));
    for block in blocks() {
        // Commands and machines on paper are no rows.
        let quoted = layout(&block.join("\n")).unwrap_or_default();
        if title(block[0]).is_none() {
            assert!(quoted.iter().all(|row| all.contains(row)), "{block:?}");
        }
    }
}

#[test]
fn counts_are_right() {
    assert_eq!(rows(model("L")).len(), 12);
    assert_eq!(rows(model("counter")).len(), 140);
    assert_eq!(rows(model("placing_head")).len(), 114);
    assert_eq!(Answers::of(&table(model("L"))).check(), Ok(2));
    assert_eq!(Answers::of(&table(model("counter"))).check(), Ok(33));
    assert_eq!(Answers::of(&table(model("placing_head"))).check(), Ok(24));
    // The free list's sizes after the variable is shared, by tag.
    let free_list = rows(model("free_list"));
    let tagged = |tag| free_list.iter().filter(|row| row.tag == tag).count();
    assert_eq!([10, 20, 32, 60].map(tagged), [13, 372, 14, 3]);
    assert_eq!(free_list.len(), 478);
    assert_eq!(Answers::of(&table(model("free_list"))).check(), Ok(138));
    let printed = print(&table(model("free_list")));
    assert_eq!(printed.len() / ROW_BYTES, 3914);
}
