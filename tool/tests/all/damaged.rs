//! Damaged and hostile texts: each is a mistake with its place, a refusal that is told, or a model that comes back.

use crate::common::model;
use compare::generate::random::Random;
use sifthorma::library::check;
use sifthorma::notation::write::write;
use sifthorma::refusal::{report, word};
use sifthorma::source::Source;
use std::sync::mpsc::channel;
use std::time::Duration;

const COUNT: usize = 10_000;

/// What became of a text.
#[derive(Clone, Debug, PartialEq, Eq)]
enum Outcome {
    Mistake(String),
    Refused(String),
    Accepted,
}

use Outcome::*;

/// What the tool says to a text; it is looked at closely.
fn outcome(text: &[u8]) -> Outcome {
    let source = match Source::of("damaged.eb", text) {
        Ok(source) => source,
        Err(mistake) => {
            assert_placed(&mistake, text);
            return Mistake(mistake);
        }
    };
    assert_eq!(source.lines.len(), source.bytes.len().div_ceil(38));
    match check(&source.bytes) {
        Ok(_) => {
            let written = write(&source.table, &source.names);
            let again = Source::of("again.eb", written.as_bytes());
            let again = again.unwrap_or_else(|mistake| panic!("{mistake}\n{written}"));
            assert!(again.bytes == source.bytes, "other bytes\n{written}");
            Accepted
        }
        Err(refusal) => {
            let said = report(&source, refusal);
            let head = format!("refusal {} ({})", refusal.number, word(refusal.number));
            assert!(said.starts_with("damaged.eb:"), "{said}");
            assert!(said.contains(&head), "{said}");
            Refused(said)
        }
    }
}

/// The message names the file, a line of the text and a column in it, or the one after its last; then it says something short.
fn assert_placed(message: &str, text: &[u8]) {
    let text = String::from_utf8_lossy(text);
    let lines: Vec<&str> = text.split('\n').collect();
    let parts: Vec<&str> = message.splitn(4, ':').collect();
    let [file, line, column, said] = parts[..] else {
        panic!("no place: {message}");
    };
    assert_eq!(file, "damaged.eb");
    let (line, column): (usize, usize) = (
        line.parse().expect("a line"),
        column.parse().expect("a column"),
    );
    let within = lines.get(line.wrapping_sub(1)).expect("a line of the text");
    assert!(
        (1..=within.chars().count() + 1).contains(&column),
        "{message}"
    );
    assert!(said.starts_with(' ') && said.trim().len() > 10, "{message}");
    assert!(!message.contains(['\n', '\r', '\t']), "{message}");
    assert!(message.chars().count() < 300, "{message}");
}

/// Words and signs of the notation, and some that are none.
const WORDS: &str = "( ) ∧ ∨ ¬ ⇒ ⇔ = ≠ < ≤ > ≥ + − - ∗ ÷ mod ⊤ ⊥ TRUE FALSE bool bool( ≔ := :∣ :| ∈ : , ' @ @inv1 @act1 0 1 \
    -1 2147483648 & or not / * // /* */ context constants axioms machine refines sees variables invariants variant events \
    event ordinary convergent anticipated any where when with then begin end numbering nodes identifiers theorem extends \
    ℤ INT BOOL INITIALISATION END count done x ∀ { ..";

/// Any character: of the first 128, of those that are letters somewhere, of signs, or whatever Unicode has.
fn any_character(random: &mut Random) -> char {
    let number = match random.below(4) {
        0 => random.below(128),
        1 => random.below(0x600),
        2 => random.between(0x2000, 0x2AFF),
        _ => random.below(0x11_0000),
    };
    char::from_u32(number as u32).unwrap_or('\u{FFFD}')
}

/// Something to put into a text.
fn any_insert(random: &mut Random) -> String {
    let words: Vec<&str> = WORDS.split_whitespace().collect();
    let long = random.pick(&[2, 20, 700, 3000]);
    match random.below(16) {
        0 => any_character(random).to_string(),
        1 => (0..5).map(|_| any_character(random)).collect(),
        2 => "(".repeat(long),
        3 => "¬(".repeat(long) + "⊤" + &")".repeat(long),
        4 => "9".repeat(long),
        5 => "n".repeat(long),
        6 => " + 1".repeat(long),
        7 => "\u{FEFF}\0\r\u{B}\u{85}".to_string(),
        _ => format!(" {} ", random.pick(&words)),
    }
}

/// The text in pieces: its characters, its words and what stands between them, or its lines.
fn pieces(text: &str, random: &mut Random) -> Vec<String> {
    match random.below(3) {
        0 => text.chars().map(String::from).collect(),
        1 => words(text),
        _ => text.split_inclusive('\n').map(str::to_string).collect(),
    }
}

fn words(text: &str) -> Vec<String> {
    let mut words: Vec<String> = Vec::new();
    for c in text.chars() {
        match words.last_mut() {
            Some(word) if c.is_alphanumeric() && word.ends_with(char::is_alphanumeric) => {
                word.push(c)
            }
            _ => words.push(c.to_string()),
        }
    }
    words
}

/// One damage: pieces are left out, doubled, exchanged, put in the place of another, inserted, or all cut off.
fn damage(text: &str, random: &mut Random) -> String {
    let mut pieces = pieces(text, random);
    let (place, other) = (random.below(pieces.len()), random.below(pieces.len()));
    if pieces.is_empty() {
        return any_insert(random);
    }
    match random.below(16) {
        0..=3 => drop(pieces.remove(place)),
        4..=5 => pieces.insert(place, pieces[place].clone()),
        6..=8 => pieces.swap(place, other),
        9..=10 => pieces[place] = pieces[other].clone(),
        11 => pieces[place] = any_insert(random),
        12 if random.one_in(4) => pieces.truncate(place),
        _ => pieces.insert(place, any_insert(random)),
    }
    pieces.concat()
}

/// One of the model's names, numbers or signs in the place of another of its sort, so that the text can still be read.
fn mistaken(text: &str, random: &mut Random) -> String {
    let names = "base limit done x tens ones y parts reach placed left gap d blocks free head link1 taken1 place1 n";
    let numbers = "0 1 2 3 99999999999";
    let signs = "= < ≤ ∧ ∨ ⇒ ∗ + ÷";
    let types = "ℤ BOOL";
    let status = "event convergent anticipated";
    let sorts = [names, names, numbers, signs, types, status];
    let sort: Vec<&str> = random.pick(&sorts).split_whitespace().collect();
    let mut words = words(text);
    let of_sort = |place: &usize| sort.contains(&words[*place].as_str());
    let places: Vec<usize> = (0..words.len()).filter(of_sort).collect();
    if let (Some(place), Some(other)) = (random.maybe(&places), random.maybe(&places)) {
        words[place] = match random.one_in(2) {
            true => words[other].clone(),
            false => random.pick(&sort).to_string(),
        };
    }
    words.concat()
}

/// A model with one to three damages, one in twenty with a byte that is no character.
fn damaged(seed: u64) -> Vec<u8> {
    let mut random = Random::new(seed);
    let names = ["counter", "placing_head", "free_list", "double_release"];
    let model = model(&format!("{}.eb", random.pick(&names)));
    let mut text = String::from_utf8(model).expect("UTF-8");
    let damage = random.pick(&[damage, damage, mistaken]);
    for _ in 0..random.between(1, 3) {
        text = damage(&text, &mut random);
    }
    let mut bytes = text.into_bytes();
    if random.one_in(20) && !bytes.is_empty() {
        let place = random.below(bytes.len());
        bytes[place] = random.pick(&[0, 0x80, 0xC3, 0xE2, 0xF0, 0xFF]);
    }
    bytes
}

/// The outcomes of texts 0 to a count, found on a stack of 64 MB. One that panics or has no end is named.
fn outcomes(count: usize, text: impl Fn(usize) -> Vec<u8> + Send + 'static) -> Vec<Outcome> {
    let (sender, receiver) = channel();
    let run = move || {
        for number in 0..count {
            let _ = sender.send(outcome(&text(number)));
        }
    };
    let thread = std::thread::Builder::new().stack_size(64 << 20);
    thread.spawn(run).expect("a thread");
    let received = (0..count).map(|number| {
        let outcome = receiver.recv_timeout(Duration::from_secs(30));
        outcome.unwrap_or_else(|error| panic!("text {number}: {error}"))
    });
    received.collect()
}

#[test]
fn damaged_texts_are_told() {
    let outcomes = outcomes(COUNT, |seed| damaged(seed as u64));
    let count = |passes: fn(&&Outcome) -> bool| outcomes.iter().filter(passes).count();
    let mistakes = count(|one| matches!(one, Mistake(_)));
    let refused = count(|one| matches!(one, Refused(_)));
    let accepted = count(|one| **one == Accepted);
    let met = format!("{mistakes} mistakes, {refused} refused, {accepted} accepted");
    assert!(mistakes > 5000 && refused > 500 && accepted > 1000, "{met}");
}

/// A text whose only axiom is this.
fn axiom(formula: String) -> String {
    format!("context c axioms @axm1 {formula} end machine m end")
}

/// So many parts, made by their numbers.
fn many(count: usize, part: impl Fn(usize) -> String) -> String {
    (1..=count).map(part).collect()
}

const NOTHING: &str = "expected `context` or `machine`, found the end of the text";
const TOO_DEEP: &str = "the formula is nested too deep: a table takes 512 nodes";
const TOO_LONG: &str = "the formula is too long: a table takes 512 nodes";
const TOO_LARGE: &str = "a number lies between −2147483648 and 2147483647";

/// Texts without anything, with the place of their end.
fn empty() -> Vec<(String, &'static str)> {
    vec![
        (String::new(), "1:1"),
        ("// nothing".to_string(), "1:11"),
        ("/* nothing */".to_string(), "1:14"),
        ("/".repeat(1_000_000), "1:1000001"),
        ("\n".repeat(1_000_000), "1000001:1"),
        ("\u{feff}".repeat(1_000_000), "1:1"),
    ]
}

/// Formulas with the place and what is said there.
fn odd_formulas() -> Vec<(String, &'static str, &'static str)> {
    let n = 100_000;
    vec![
        ("(".repeat(n), "1:624", TOO_DEEP),
        ("(".repeat(n) + "1" + &")".repeat(n), "1:624", TOO_DEEP),
        ("¬".repeat(n), "1:624", TOO_DEEP),
        ("bool(".repeat(n), "1:3024", TOO_DEEP),
        ("1 + ".repeat(n), "1:2022", TOO_LONG),
        ("⊤ ∧ ".repeat(n), "1:2022", TOO_LONG),
        ("9".repeat(1_000_000), "1:24", TOO_LARGE),
    ]
}

#[test]
fn odd_texts_are_mistakes() {
    let mut texts: Vec<String> = Vec::new();
    let mut said = Vec::new();
    for (text, place) in empty() {
        texts.push(text);
        said.push(format!("damaged.eb:{place}: {NOTHING}"));
    }
    for (formula, place, message) in odd_formulas() {
        texts.push(axiom(formula));
        said.push(format!("damaged.eb:{place}: {message}"));
    }
    // messages cut long names
    let (long, cut) = ("n".repeat(1_000_000), "n".repeat(60));
    texts.push(axiom(long.clone()));
    said.push(format!("damaged.eb:1:24: `{cut}..` isn't declared"));
    texts.push(format!("machine {long} end machine {long} end"));
    said.push(format!(
        "damaged.eb:1:1000022: `{cut}..` is the name of the first machine"
    ));
    let outcomes = outcomes(texts.len(), move |number| {
        texts[number].clone().into_bytes()
    });
    assert_eq!(outcomes, said.into_iter().map(Mistake).collect::<Vec<_>>());
}

/// Texts that have far too much of something: they are read quickly, and the library refuses them.
fn large() -> Vec<String> {
    let n = 50_000;
    let names = |letter: char| many(n, |k| format!("{letter}{k} "));
    let axioms = many(n, |k| format!("@l{k} c{k} = 0 "));
    let parameters = names('p');
    let one_event = |head: &str| format!("events event {head} any {parameters} ∈ ℤ end end");
    let first = many(n, |k| format!("event e{k} any p{k} ∈ ℤ end "));
    let second = many(n, |k| format!("event f{k} refines e{k} any p{k} ∈ ℤ end "));
    let (constants, variables) = (names('c'), names('w'));
    vec![
        format!("context c constants {constants} ∈ ℤ axioms {axioms} end machine m end"),
        format!("machine a {} machine b refines a {}", one_event("e"), one_event("f refines e")),
        format!("machine a events {first} end machine b refines a variables {variables} ∈ ℤ events {second} end"),
    ]
}

#[test]
fn large_texts_are_refused() {
    let texts = large();
    let count = texts.len();
    for outcome in outcomes(count, move |number| texts[number].clone().into_bytes()) {
        let frame = matches!(&outcome, Refused(said) if said.contains("refusal 1 (frame)"));
        assert!(frame, "{outcome:?}");
    }
}
