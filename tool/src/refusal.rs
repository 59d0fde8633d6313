//! Refusals in words: which row of which formula, what is wrong with it, and what to look for.

use crate::faults;
use crate::formula::{operator, sign, Mention};
use crate::library::{self, Refusal};
use crate::missing::missing;
use crate::rows::ROW_BYTES;
use crate::source::Source;
use crate::table::{kind, tag};

/// The words of refusals 1 to 18; from 16 on they are of logs.
const WORDS: [&str; 18] = [
    "frame",
    "column",
    "tag",
    "full",
    "event",
    "identifier",
    "reference",
    "sort",
    "use",
    "sight",
    "twice",
    "missing",
    "sequent",
    "entry",
    "room",
    "outside",
    "undefined",
    "log",
];

/// The word of a refusal.
pub fn word(number: u64) -> &'static str {
    let place = (number as usize).wrapping_sub(1);
    WORDS.get(place).copied().unwrap_or("unknown")
}

/// The refusal with the line of the file and what it says, then a line on what to look for.
pub fn report(source: &Source, refusal: Refusal) -> String {
    let Refusal { number, row } = refusal;
    let (said, place) = match number {
        12 => match missing(&source.table, &source.names) {
            Some(missing) => (missing.what, missing.row),
            None => ("something isn't there".to_string(), 0),
        },
        _ => (said(source, refusal), row),
    };
    let place = source.place(place);
    let head = format!(
        "{place}: refusal {number} ({}), row {row}: {said}",
        word(number)
    );
    format!("{head}\n    look for: {}\n", look_for(number))
}

/// What is wrong, of refusals other than 12.
fn said(source: &Source, refusal: Refusal) -> String {
    let Some(place) = refusal.row.checked_sub(1) else {
        return without_row(source, refusal.number);
    };
    let table = &source.table;
    let Some(&row) = table.rows.get(place) else {
        return not_a_row(source, place);
    };
    let what = described(source, place);
    let wrong = match refusal.number {
        2 if row.tag == tag::NODE && row.a == operator::LITERAL => {
            "a number lies between −2147483648 and 2147483647".to_string()
        }
        2 => not_a_row(source, place),
        3 => faults::of_tag(table, place),
        4 => format!("one more than a table takes: {}", limit(row.tag)),
        5 => faults::of_event(table, place).to_string(),
        6 => faults::of_identifier(table, row).to_string(),
        7 => faults::of_reference(source, place),
        8 => faults::of_sort(source, row),
        9 => faults::of_use(table, place).to_string(),
        10 => faults::of_sight(source, place),
        11 => faults::of_target(source, row),
        _ => "it is refused".to_string(),
    };
    format!("{what}: {wrong}")
}

fn without_row(source: &Source, number: u64) -> String {
    match number {
        1 => "the table isn't whole rows of 38 bytes, or is longer than 65,536".to_string(),
        13 => match library::check(&source.bytes) {
            Ok(count) => format!("no sequent has this number; the model has {count}"),
            Err(_) => "no sequent has this number".to_string(),
        },
        14 => "no entry has this number".to_string(),
        15 => "the buffer is shorter than the rows".to_string(),
        _ => "something isn't there".to_string(),
    }
}

/// The row as the table has it.
fn not_a_row(source: &Source, place: usize) -> String {
    let row = source.bytes.chunks(ROW_BYTES).nth(place).unwrap_or(&[]);
    format!("`{}` isn't in the row form", columns_of(row))
}

/// What stands in a row's columns, without their spaces, on one line.
pub fn columns_of(row: &[u8]) -> String {
    let shown = |c: char| match c.is_control() {
        true => c.escape_debug().to_string(),
        false => c.to_string(),
    };
    let columns = [0..4, 4..15, 15..26, 26..37];
    let words = columns.map(|columns| {
        let bytes = row.get(columns).unwrap_or(&[]);
        let word = String::from_utf8_lossy(bytes);
        word.trim_matches(' ')
            .chars()
            .map(shown)
            .collect::<String>()
    });
    words.join(" ")
}

/// A row as the model's names have it.
pub fn described(source: &Source, place: usize) -> String {
    let (table, names) = (&source.table, &source.names);
    let row = table.rows[place];
    let label = names.label(place);
    let number = 1 + table.places(row.tag).filter(|&other| other < place).count();
    match row.tag {
        tag::IDENTIFIER => format!("{} {}", kind_word(row.a), names.own_name(number)),
        tag::NODE => described_node(source, number as i64),
        tag::AXIOM => format!("axiom @{label}"),
        tag::ABSTRACT_INVARIANT => format!("invariant @{label} of {}", names.machine(1)),
        tag::CONCRETE_INVARIANT => format!("invariant @{label} of {}", names.machine(2)),
        tag::EVENT => format!(
            "event {} of {}",
            names.event(number as i64),
            names.machine(row.a)
        ),
        tag::GUARD => format!("guard @{label} of event {}", names.event(row.a)),
        tag::BECOMES_EQUAL | tag::BECOMES_SUCH => {
            format!("action @{label} of event {}", names.event(row.a))
        }
        tag::WITNESS => format!("witness @{label} of event {}", names.event(row.a)),
        tag::VARIANT => "the variant".to_string(),
        _ => format!("a row with tag {}", row.tag),
    }
}

/// An identifier or after value with its kind, that of a parameter with its event.
pub fn described_mention(source: &Source, mention: Mention) -> String {
    let (table, names) = (&source.table, &source.names);
    let number = mention.identifier;
    let Some(row) = table.identifier(number as i64) else {
        return format!("identifier {number}, which isn't there");
    };
    let prime = if mention.after { "'" } else { "" };
    let (name, kind) = (names.own_name(number), kind_word(row.a));
    match row.c {
        0 => format!("{name}{prime} ({kind})"),
        owner => format!("{name}{prime} ({kind} of {})", names.event(owner)),
    }
}

pub fn kind_word(identifier_kind: i64) -> &'static str {
    match identifier_kind {
        kind::CONSTANT => "constant",
        kind::ABSTRACT_VARIABLE => "abstract variable",
        kind::CONCRETE_VARIABLE => "concrete variable",
        kind::ABSTRACT_PARAMETER => "abstract parameter",
        kind::CONCRETE_PARAMETER => "concrete parameter",
        kind::SHARED_VARIABLE => "shared variable",
        _ => "identifier",
    }
}

/// A node's sign, and the formula that it stands in.
fn described_node(source: &Source, node: i64) -> String {
    let table = &source.table;
    let row = table.numbered(tag::NODE, node);
    let name = |number: i64| match usize::try_from(number) {
        Ok(number) => source.names.own_name(number),
        Err(_) => format!("identifier {number}"),
    };
    let text = row.map_or(String::new(), |row| match row.a {
        operator::LITERAL => row.b.to_string(),
        operator::IDENTIFIER => name(row.b),
        operator::AFTER => name(row.b) + "'",
        other => sign(other).to_string(),
    });
    // users have higher numbers where the references are in order; else the search ends at the first that hasn't
    let mut top = node;
    while let Some(&user) = table.users(top).iter().find(|&&user| user > top) {
        top = user;
    }
    match table.named_by(top) {
        Some(place) => format!("`{text}` in {}", described(source, place)),
        None => format!("`{text}`, node {node}"),
    }
}

fn limit(row_tag: i64) -> &'static str {
    match row_tag {
        tag::IDENTIFIER => "64 identifiers",
        tag::NODE => "512 nodes, one for each number, name and operator in the formulas",
        tag::AXIOM => "16 axioms",
        tag::ABSTRACT_INVARIANT | tag::CONCRETE_INVARIANT => "16 invariants in each machine",
        tag::EVENT => "32 events",
        tag::GUARD => "64 guards",
        tag::BECOMES_EQUAL | tag::BECOMES_SUCH => "128 actions",
        tag::WITNESS => "128 witnesses",
        _ => "1 variant",
    }
}

/// What most often causes a refusal.
fn look_for(number: u64) -> &'static str {
    match number {
        1 => "a last line without its line feed, line ends of two bytes, a row with a column too many; or a text of more than 1,724 rows",
        2 => "a letter for a digit, a leading zero, a number that isn't between −2147483648 and 2147483647, three numbers or five",
        3 => "a row typed in the wrong section, or numbers one column to the right",
        4 => "what can be shorter or left out; the limits are in docs/GUIDE.md",
        5 => "a missing `refines`, a status that isn't meant, an INITIALISATION that isn't first",
        6 => "a parameter of an INITIALISATION, or of an event of the other machine; in rows, owners that are wrong by one",
        7 => "a variable of the other machine, a prime at a constant or a parameter, a witness for a shared variable; in rows, numbers that are wrong by one",
        8 => "a flag that is tested without `= TRUE`, `=` between predicates (⇔ is meant), a predicate that is assigned without bool(..)",
        9 => "a formula whose row is missing, or a root typed twice",
        10 => "a missing prime, a variable of the other machine, a parameter of another event",
        11 => "two actions for one variable, or two witnesses for one target",
        12 => "an INITIALISATION in either machine, an action for every variable in it; at every event that refines, a witness for every abstract variable, set or not, and every parameter of the refined event; a variant for convergent events",
        13 => "a number from 1 to the count that `check` gives",
        _ => "a number within what is there",
    }
}
