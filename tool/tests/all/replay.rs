//! Replays of logs in words: the library's number and row, the step, its event and why it isn't allowed.

use crate::common::{edited, file, read, run, text_of};
use compare::checks::accept;
use compare::runs::simulate::simulate;
use sifthorma::library::replay;
use sifthorma::log::shape::Shapes;
use sifthorma::log::Log;
use sifthorma::refusal::word;
use sifthorma::replay::words::report;
use sifthorma::rows::ROW_BYTES;
use sifthorma::source::Source;

/// Steps of which terms leave 64 bits, or divide by nothing.
const TERMS: &str = "\
context c0
constants big, c ∈ ℤ
axioms
  @axm1 0 < big
  @axm2 0 ≤ 12 ÷ (c − 1)
end
machine m0 sees c0
events
  event INITIALISATION end
end
machine m1 refines m0 sees c0
variables
  v ∈ ℤ
  on ∈ BOOL
events
  event INITIALISATION then @act1 v ≔ 0 @act2 on ≔ TRUE end
  anticipated event grow where @grd1 big ∗ big ∗ big < v then @act1 v ≔ v end
  anticipated event less any d ∈ ℤ then @act1 v ≔ −(d ∗ d ∗ (−2)) end
  anticipated event part any d ∈ ℤ then @act1 v ≔ v mod d end
  anticipated event both any d ∈ ℤ then @act1 v ≔ (big ∗ big ∗ big) ÷ (d + 1) end
  anticipated event pick then @act1 v :∣ v < v' end
  anticipated event flip where @grd1 ⊤ then @act1 on ≔ bool(on = FALSE) end
  anticipated event never where @grd1 ⊥ end
  anticipated event rest any d ∈ ℤ then @act1 v ≔ d mod c end
  anticipated event over any d ∈ ℤ then @act1 v ≔ (big ∗ big ∗ big) mod d end
  anticipated event left where @grd1 big ∗ big ∗ big < 12 ÷ v end
  anticipated event right where @grd1 12 ÷ v < big ∗ big ∗ big end
end
";

/// Constants and variables at the start, for TERMS.
const START: &str = "INITIALISATION: big = 2147483647, c = 3, v = 0, on = TRUE\n";

fn free_list() -> Source {
    Source::of("models/free_list.eb", text_of("free_list.eb").as_bytes()).expect("a model")
}

/// The log is refused with this number and row, in these words.
fn refuses(source: &Source, log: &Log, number: u64, row: usize, words: &str) {
    let refusal = replay(&source.bytes, &log.bytes).expect_err("a refusal");
    assert_eq!((refusal.number, refusal.row), (number, row), "{words}");
    let shapes = Shapes::of(&source.table, &source.names);
    let said = report(source, &shapes, log, refusal);
    let (line, look_for) = said.split_once('\n').expect("two lines");
    let head = format!("refusal {number} ({}), row {row}: ", word(number));
    let (_, after) = line.split_once(&head).expect("number, word and row");
    assert_eq!(after, words);
    assert!(look_for.starts_with("    look for: "), "{said}");
}

fn log_of(source: &Source, text: &str) -> Log {
    let shapes = Shapes::of(&source.table, &source.names);
    Log::of("l.txt", text.as_bytes().to_vec(), &shapes).expect("no mistake")
}

/// A text is refused so.
fn refuses_text(source: &Source, text: &str, number: u64, row: usize, words: &str) {
    refuses(source, &log_of(source, text), number, row, words);
}

/// The good log of the free list with one place changed is refused so, as rows: 18.
fn refuses_edited(from: &str, to: &str, row: usize, words: &str) {
    let text = edited(&text_of("free_list.log"), from, to);
    refuses_text(&free_list(), &text, 18, row, words);
}

/// The first rows of the good log, with these bytes behind them, are refused so: 18.
fn refuses_after(rows: usize, more: &str, row: usize, words: &str) {
    let source = free_list();
    let mut bytes = log_of(&source, &text_of("free_list.log")).bytes;
    bytes.truncate(rows * ROW_BYTES);
    bytes.extend(more.as_bytes());
    refuses(&source, &Log::of_rows("l", bytes), 18, row, words);
}

fn row(tag: i64, a: i64, b: i64, c: i64) -> String {
    format!("{tag:>4}{a:>11}{b:>11}{c:>11}\n")
}

/// Runs of the models, found by the independent program, as rows and as texts.
#[test]
fn runs_are_accepted() {
    for name in ["counter", "free_list", "placing_head"] {
        let model = format!("models/{name}.eb");
        let table = accept(run(&["table", &model]).output.as_bytes()).expect("accepted");
        for (steps, seed) in [(0, 1), (1, 2), (40, 3)] {
            let log = simulate(&table, steps, seed).expect("a run");
            let log = String::from_utf8(log).expect("rows");
            let rows = file(&format!("{name}_{steps}.rows"), &log);
            let rows = rows.to_str().expect("UTF-8");
            let text = run(&["log", &model, rows]).output;
            let text = file(&format!("{name}_{steps}.log"), &text);
            for log in [rows, text.to_str().expect("UTF-8")] {
                let ran = run(&["replay", &model, log]);
                let s = if steps == 1 { "" } else { "s" };
                let accepted = format!("{log}: accepted: {steps} step{s}\n");
                assert_eq!((ran.output, ran.status), (accepted, Some(0)));
            }
        }
    }
}

#[test]
fn a_log_that_ends() {
    let source = free_list();
    let empty = "the log is empty; it begins with the initialisation";
    refuses_text(&source, "", 18, 0, empty);
    refuses_text(&source, "// nothing\n", 18, 0, empty);
    let ends = "the log ends inside the initialisation, before its rows 91 for taken3, place1, place2, place3";
    refuses_after(9, "", 0, ends);
    let ends = "the log ends inside step 2 (take2), before its rows 91 for place3";
    refuses_after(36, "", 0, ends);
}

#[test]
fn a_torn_row() {
    let torn = "step 1: expected `90 EVENT 0 0`, an event of list, found a torn row, 6 bytes of 38";
    refuses_after(13, "  90  ", 14, torn);
    let torn = "step 1 (take1): expected `91 4 VALUE 0`, concrete variable head, found a torn row, 37 bytes of 38";
    refuses_after(15, row(91, 4, 2, 0).trim_end(), 16, torn);
}

#[test]
fn a_row_that_is_no_step() {
    let next = "step 1: expected `90 EVENT 0 0`, an event of list, found ";
    let refuses = |typed: String, words: &str| {
        refuses_after(13, &typed, 14, &format!("{next}{words}"));
    };
    refuses(
        row(91, 2, 3, 0),
        "`91 2 3 0`; the initialisation has its 12 rows 91 already",
    );
    refuses(
        row(90, 3, 0, 0),
        "`90 3 0 0`: give_back is an event of blocks_free",
    );
    refuses(
        row(90, 4, 0, 0),
        "`90 4 0 0`: the INITIALISATION of list comes first and only once",
    );
    refuses(row(90, 14, 0, 0), "`90 14 0 0`: no event has number 14");
    refuses(
        row(90, 5, 0, 1),
        "`90 5 0 1`, where a column that isn't used isn't 0",
    );
    refuses(
        row(90, 5, 0, 0).replace('5', "x"),
        "`90 x 0 0`, which isn't in the row form (numbers lie between −2147483648 and 2147483647)",
    );
    let first = "the initialisation: expected `90 4 0 0`, the INITIALISATION of list, found ";
    let words = format!("{first}`90 5 0 0`: take1 is no INITIALISATION, and a log begins with it");
    refuses_after(0, &row(90, 5, 0, 0), 1, &words);
    refuses_after(0, &row(91, 1, 3, 0), 1, &format!("{first}`91 1 3 0`"));
}

#[test]
fn a_row_that_is_no_value() {
    let expected = "step 1 (take1): expected `91 4 VALUE 0`, concrete variable head, found ";
    let refuses = |typed: String, words: &str| {
        refuses_after(15, &typed, 16, &format!("{expected}{words}"));
    };
    refuses(row(91, 5, 2, 0), "`91 5 2 0`: concrete variable link1");
    refuses(row(91, 3, 2, 0), "`91 3 2 0`: abstract parameter n");
    refuses(
        row(91, 99, 2, 0),
        "`91 99 2 0`: no identifier has number 99",
    );
    refuses(row(90, 5, 0, 0), "`90 5 0 0`");
    refuses(
        row(91, 4, 2, 1),
        "`91 4 2 1`, where a column that isn't used isn't 0",
    );
    refuses(
        row(91, 4, 2147483648, 0),
        "`91 4 2147483648 0`, which isn't in the row form (numbers lie between −2147483648 and 2147483647)",
    );
    let boolean = "the initialisation: expected `91 8 VALUE 0`, concrete variable taken1 (0 or 1), found `91 8 2 0`";
    refuses_edited("taken1 = FALSE, taken2", "taken1 = 2, taken2", 8, boolean);
}

/// A number that doesn't fit its columns is the library's to refuse, in a text too.
#[test]
fn a_number_too_large() {
    for number in ["2147483648", "-99999999999", "999999999999999999999999"] {
        let text = edited(
            &text_of("free_list.log"),
            "free = 2, head = 2",
            &format!("free = {number}, head = 2"),
        );
        let source = free_list();
        let refusal = replay(&source.bytes, &log_of(&source, &text).bytes);
        let refusal = refusal.expect_err("a refusal");
        assert_eq!((refusal.number, refusal.row), (18, 15), "{number}");
    }
}

#[test]
fn a_step_that_is_not_allowed() {
    let axiom =
        "the initialisation isn't allowed: axiom @axm1: `blocks = 3` is false at blocks = 4";
    refuses_edited("blocks = 3", "blocks = 4", 1, axiom);
    let guard = "step 1 isn't allowed: guard @grd1 of event take2: `head = 2` is false at head = 1";
    refuses_edited("take1: free", "take2: free", 14, guard);
    let action = "step 1 isn't allowed: action @act1 of event take1: `free ≔ free − 1` gives 2 at free = 3, but free' = 1 is logged";
    refuses_edited("take1: free = 2", "take1: free = 1", 14, action);
    let action = "step 1 isn't allowed: action @act3 of event take1: `taken1 ≔ TRUE` gives TRUE, but taken1' = FALSE is logged";
    refuses_edited("taken1 = TRUE", "taken1 = FALSE", 14, action);
    let kept = "step 3 isn't allowed: event sweep2 doesn't set link3, but link3 = 0 and link3' = 1";
    refuses_edited("link2 = 0, ..", "link2 = 0, link3 = 1, ..", 38, kept);
}

#[test]
fn a_term_without_value() {
    let source = read(TERMS).expect("a model");
    let refuses = |steps: &str, number, row, words: &str| {
        refuses_text(&source, &format!("{START}{steps}\n"), number, row, words);
    };
    let start = START.replace("c = 3", "c = 1");
    let axiom = "the initialisation: axiom @axm2: `12 ÷ (c − 1)` is undefined: its divisor `c − 1` is 0 at c = 1";
    refuses_text(&source, &start, 17, 1, axiom);
    let outside = "step 2: guard @grd1 of event grow: `big ∗ big ∗ big` is outside signed 64 bits: 4611686014132420609 ∗ 2147483647 at big = 2147483647";
    refuses("pick: v = 7, ..\ngrow: ..", 16, 9, outside);
    let outside = "step 1: action @act1 of event less: `−(d ∗ d ∗ (−2))` is outside signed 64 bits: −(−9223372036854775808) at d = −2147483648";
    refuses("less: d = −2147483648, ..", 16, 6, outside);
    let undefined = "step 1: action @act1 of event part: `v mod d` is undefined: its divisor `d` is 0 at v = 0, d = 0";
    refuses("part: d = 0, ..", 17, 6, undefined);
    let undefined = "step 1: action @act1 of event part: `v mod d` is undefined: its divisor `d` is −2 at v = 0, d = −2";
    refuses("part: d = -2, ..", 17, 6, undefined);
    let undefined = "step 1: action @act1 of event rest: `d mod c` is undefined: its dividend `d` is −4 at c = 3, d = −4";
    refuses("rest: d = -4, ..", 17, 6, undefined);
    // the leftmost operand decides, before its operator
    for (event, d) in [("over", 1), ("over", -1), ("both", 1), ("both", -1)] {
        let outside = format!("step 1: action @act1 of event {event}: `big ∗ big ∗ big` is outside signed 64 bits: 4611686014132420609 ∗ 2147483647 at big = 2147483647");
        refuses(&format!("{event}: d = {d}, .."), 16, 6, &outside);
    }
    let outside = "step 1: guard @grd1 of event left: `big ∗ big ∗ big` is outside signed 64 bits: 4611686014132420609 ∗ 2147483647 at big = 2147483647";
    refuses("left: ..", 16, 6, outside);
    let undefined =
        "step 1: guard @grd1 of event right: `12 ÷ v` is undefined: its divisor `v` is 0 at v = 0";
    refuses("right: ..", 17, 6, undefined);
    let such =
        "step 1 isn't allowed: action @act1 of event pick: `v < v'` is false at v = 0, v' = 0";
    refuses("pick: ..", 18, 6, such);
    let never = "step 1 isn't allowed: guard @grd1 of event never: `⊥` is false";
    refuses("never: ..", 18, 6, never);
    let flip = "step 2 isn't allowed: action @act1 of event flip: `on ≔ bool(on = FALSE)` gives TRUE at on = FALSE, but on' = FALSE is logged";
    refuses("flip: on = FALSE, ..\nflip: ..", 18, 9, flip);
}

/// What the program writes where, and its status.
#[test]
fn the_program() {
    let refused = run(&["replay", "models/free_list.eb", "models/double_release.log"]);
    let said = "models/double_release.log:13: refusal 18 (log), row 50: step 4 isn't allowed: guard @grd1 of event release1: `taken1 = TRUE` is false at taken1 = FALSE\n";
    assert!(refused.output.starts_with(said), "{refused:?}");
    assert_eq!((refused.message.as_str(), refused.status), ("", Some(1)));
    // a refused model is told as by the other commands, before the log is read
    for command in ["replay", "log", "rows"] {
        let refused = run(&[command, "models/refused.eb", "models/free_list.log"]);
        let text = run(&["text", "models/refused.eb"]);
        assert_eq!(refused, text);
        let missing = run(&[command, "models/free_list.eb", "models/none.log"]);
        let message = "models/none.log: cannot read it: ";
        assert!(missing.message.starts_with(message), "{missing:?}");
        assert_eq!((missing.output.as_str(), missing.status), ("", Some(2)));
        let both = run(&[command, "-", "-"]);
        assert_eq!(both.status, Some(2), "{both:?}");
    }
}

/// Rows and text give one answer, and each is made of the other.
#[test]
fn rows_and_text() {
    let model = "models/free_list.eb";
    let rows = run(&["rows", model, "models/free_list.log"]);
    assert_eq!((rows.output.len(), rows.status), (73 * ROW_BYTES, Some(0)));
    let path = file("free_list.rows", &rows.output);
    let path = path.to_str().expect("UTF-8");
    let accepted = run(&["replay", model, path]);
    assert_eq!(accepted.output, format!("{path}: accepted: 5 steps\n"));
    assert_eq!(run(&["rows", model, path]), rows);
    let text = run(&["log", model, path]);
    assert_eq!(run(&["log", model, "models/free_list.log"]), text);
    let typed = text_of("free_list.log");
    let steps = typed.lines().filter(|line| line.ends_with(".."));
    for step in steps {
        assert!(text.output.lines().any(|line| line == step), "{step}");
    }
    let torn = file("torn.rows", &rows.output[..100]);
    let torn = torn.to_str().expect("UTF-8");
    let no_text = run(&["log", model, torn]);
    let message = format!("{torn}:3: row 3 isn't in the row form, so the log has no text\n");
    assert_eq!((no_text.message, no_text.status), (message, Some(2)));
}

/// A parameter belongs to one step: the next has none to keep.
#[test]
fn a_parameter_is_not_kept() {
    let source = read(TERMS).expect("a model");
    let shapes = Shapes::of(&source.table, &source.names);
    let text = format!("{START}part: d = 1, ..\npart: ..\n");
    let log = Log::of("l.txt", text.into_bytes(), &shapes);
    let mistake = "l.txt:3:7: `d` has no value that it could keep; it must be named";
    assert_eq!(log.err().as_deref(), Some(mistake));
}

/// Mistakes of a text: the line, the column and what is wrong.
#[test]
fn mistakes() {
    let source = free_list();
    let shapes = Shapes::of(&source.table, &source.names);
    for (text, mistake) in [
        (
            "take9: free = 2",
            "1:1: the refinement has no event `take9`; values stand behind an event and `:`",
        ),
        (
            "take1: n = 2",
            "1:8: `n` is nothing that a step of `take1` logs",
        ),
        (
            "take1: free 2",
            "1:13: expected `=` after the name, found `2`",
        ),
        (
            "take1: free = TRUE",
            "1:15: expected a number, found `TRUE`",
        ),
        (
            "take1:\n taken1 = take1",
            "2:11: expected TRUE or FALSE, found `take1`",
        ),
        (
            "take1: free = 2,",
            "1:17: expected a number, found the end of the text",
        ),
        (
            "take1: ..",
            "1:8: `free` has no value that it could keep; it must be named",
        ),
        (
            "take1: free = 1, free = 2, ..",
            "1:18: `..` completes a step of named values, each named once",
        ),
        (
            "take1: 91 2 2 0, ..",
            "1:8: `..` completes a step of named values, each named once",
        ),
        (
            "// rows\n91 2 2\n",
            "3:1: expected a number, found the end of the text",
        ),
        (
            "take1: free = 2 = 3",
            "1:17: expected an event, or the four numbers of a row, found `=`",
        ),
        (
            "take1: free = 1 ; head = 2",
            "1:17: ';' is no sign of a log",
        ),
        ("/* no end", "1:1: this comment has no end: expected */"),
    ] {
        let log = Log::of("l.txt", text.as_bytes().to_vec(), &shapes);
        assert_eq!(log.err(), Some(format!("l.txt:{mistake}")), "{text}");
    }
}
