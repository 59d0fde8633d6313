//! Sessions at the bench, through a pipe: what is asked, shown, pressed, taken back and written.

use crate::common::{file, is_shown, play, program, run, run_on, Ran};
use std::fs::{read_to_string, remove_file, File};
use std::path::Path;
use std::process::Stdio;
use std::sync::OnceLock;

/// Constants and after values of both types, a shared variable, terms that leave 64 bits or divide by 0, an event named as a
/// word of the bench.
const TERMS: &str = "\
context c0
constants
  big ∈ ℤ
  fast ∈ BOOL
axioms
  @axm1 0 < big
end
machine m0 sees c0
variables s ∈ ℤ
events
  event INITIALISATION then @act1 s ≔ 0 end
  event go then @act1 s ≔ s + 1 end
end
machine m1 refines m0 sees c0
variables
  s, v ∈ ℤ
  on ∈ BOOL
events
  event INITIALISATION then @act1 s ≔ 0 @act2 v ≔ 0 @act3 on :∣ on' = FALSE ∨ on' = fast end
  event go refines go then @act1 s ≔ s + 1 end
  anticipated event cube where @grd1 v < big ∗ big ∗ big then @act1 v ≔ v + 1 end
  anticipated event part where @grd1 0 ≤ 12 ÷ v end
  anticipated event square then @act1 v ≔ −(big ∗ big) end
  anticipated event pick any d ∈ ℤ e ∈ BOOL where @grd1 0 ≤ d then @act1 on :∣ on' = e ∧ 0 < 12 ÷ d @act2 v ≔ d end
  anticipated event undo then @act1 v ≔ 0 end
end
";

/// The file with TERMS.
fn terms() -> &'static str {
    static PATH: OnceLock<String> = OnceLock::new();
    PATH.get_or_init(|| {
        let path = file("press_terms.eb", TERMS);
        path.to_str().expect("UTF-8").to_string()
    })
}

/// A path at which no file stands.
fn no_file(name: &str) -> String {
    let path = Path::new(env!("CARGO_TARGET_TMPDIR")).join(name);
    let _ = remove_file(&path);
    path.to_str().expect("UTF-8").to_string()
}

/// The session that is typed is the one that is shown, and ends well.
fn plays(words: &[&str], session: &str) {
    let session: Vec<&str> = session.lines().collect();
    let words = [&["press"], words].concat();
    let ran = play(&words, &session);
    let lines: Vec<&str> = ran.output.lines().collect();
    assert!(is_shown(&lines, &session), "{}", ran.output);
    assert_eq!((ran.message.as_str(), ran.status), ("", Some(0)));
}

/// The session ends where the input does, with this output from its last prompt on.
fn ends(words: &[&str], typed: &str, output: &str, status: i32) {
    let words = [&["press"], words].concat();
    let ran = run_on(&words, typed.as_bytes());
    assert!(ran.output.ends_with(output), "{}", ran.output);
    assert_eq!((ran.message.as_str(), ran.status), ("", Some(status)));
}

const COUNTER: &str = "models/counter.eb";

/// Parameters, after values and events without a choice, from a start to the run that isn't written.
#[test]
fn a_session() {
    plays(
        &[COUNTER],
        "\
base ∈ ℤ? 10
limit ∈ ℤ? 100
after the initialisation:
  base = 10, limit = 100, tens = 0, ones = 0
   5  turn       asks y ∈ ℤ
   6  turn_back  asks ones' ∈ ℤ
   7  carry      no step: guard @grd1 of event carry: `base ≤ ones` is false at base = 10, ones = 0
`help` says what can be typed
> turn
y ∈ ℤ? 23
  ones: 0 -> 23
press it (y)? y
after step 1 (turn):
  base = 10, limit = 100, tens = 0, ones = 23
   5  turn       asks y ∈ ℤ
   6  turn_back  asks ones' ∈ ℤ
   7  carry      enabled
> 7
  tens: 0 -> 2
  ones: 23 -> 3
press it (y)? y
after step 2 (carry):
  base = 10, limit = 100, tens = 2, ones = 3
..
> turn_back
ones' ∈ ℤ? 3
  nothing changes
press it (y)? n
not pressed
> state
after step 2 (carry):
  base = 10, limit = 100, tens = 2, ones = 3
> events
   5  turn       asks y ∈ ℤ
   6  turn_back  asks ones' ∈ ℤ
   7  carry      no step: guard @grd1 of event carry: `base ≤ ones` is false at base = 10, ones = 3
> run
INITIALISATION: base = 10, limit = 100, tens = 0, ones = 0
turn: ones = 23, y = 23, ..
carry: tens = 2, ones = 3
> quit
// the run, which isn't written
INITIALISATION: base = 10, limit = 100, tens = 0, ones = 0
turn: ones = 23, y = 23, ..
carry: tens = 2, ones = 3
",
    );
}

/// A choice that the library refuses: a guard, an action, and what a false guard hides.
#[test]
fn steps_that_are_not_allowed() {
    plays(
        &[COUNTER],
        "\
base ∈ ℤ? 10
limit ∈ ℤ? 100
..
> turn
y ∈ ℤ? 0
refusal 18 (log): step 1 isn't allowed: guard @grd1 of event turn: `0 < y` is false at y = 0
> turn
y ∈ ℤ? 101
refusal 18 (log): step 1 isn't allowed: guard @grd2 of event turn: `base ∗ tens + ones + y ≤ limit` is false at base = 10, limit = 100, tens = 0, ones = 0, y = 101
> turn_back
ones' ∈ ℤ? −1
refusal 18 (log): step 1 isn't allowed: action @act1 of event turn_back: `0 ≤ ones' ∧ ones' ≤ ones` is false at ones = 0, ones' = −1
> carry
refusal 18 (log): step 1 isn't allowed: guard @grd1 of event carry: `base ≤ ones` is false at base = 10, ones = 0
> quit
",
    );
}

/// Terms outside 64 bits and undefined ones, in guards and in actions.
#[test]
fn terms_without_a_value() {
    plays(
        &[terms()],
        "\
big ∈ ℤ? 2147483647
fast ∈ BOOL? TRUE
on' ∈ BOOL? TRUE
after the initialisation:
  big = 2147483647, fast = TRUE, s = 0, v = 0, on = TRUE
   4  go      enabled
   5  cube    no step: guard @grd1 of event cube: `big ∗ big ∗ big` is outside signed 64 bits: 4611686014132420609 ∗ 2147483647 at big = 2147483647
   6  part    no step: guard @grd1 of event part: `12 ÷ v` is undefined: its divisor `v` is 0 at v = 0
   7  square  enabled
   8  pick    asks on' ∈ BOOL, d ∈ ℤ, e ∈ BOOL
   9  undo    enabled
..
> cube
refusal 16 (outside): step 1: guard @grd1 of event cube: `big ∗ big ∗ big` is outside signed 64 bits: 4611686014132420609 ∗ 2147483647 at big = 2147483647
> part
refusal 17 (undefined): step 1: guard @grd1 of event part: `12 ÷ v` is undefined: its divisor `v` is 0 at v = 0
> pick
on' ∈ BOOL? FALSE
d ∈ ℤ? 0
e ∈ BOOL? FALSE
refusal 17 (undefined): step 1: action @act1 of event pick: `12 ÷ d` is undefined: its divisor `d` is 0 at d = 0
> quit
",
    );
}

/// What isn't accepted as a value is asked again, and an empty line gives the event up.
#[test]
fn wrong_answers() {
    plays(
        &[terms()],
        "\
big ∈ ℤ? 
expected a number, found the end of the text; `quit` leaves
big ∈ ℤ? TRUE
expected a number, found `TRUE`; `quit` leaves
big ∈ ℤ? 2147483648
expected a number from −2147483648 to 2147483647, found `2147483648`; `quit` leaves
big ∈ ℤ? 7
fast ∈ BOOL? 2
expected TRUE or FALSE, found `2`; `quit` leaves
fast ∈ BOOL? true
expected TRUE or FALSE, found `true`; `quit` leaves
fast ∈ BOOL? 0
on' ∈ BOOL? 0
..
> pick
on' ∈ BOOL? 1
d ∈ ℤ? -2147483649
expected a number from −2147483648 to 2147483647, found `-2147483649`; an empty line gives the event up
d ∈ ℤ? 3 4
expected one value, found `4`; an empty line gives the event up
d ∈ ℤ? 3;
';' is no sign of a log; an empty line gives the event up
d ∈ ℤ? quit
expected a number, found `quit`; an empty line gives the event up
d ∈ ℤ? 
pick is given up
> 8
on' ∈ BOOL? 1
d ∈ ℤ? 3
e ∈ BOOL? TRUE
  v: 0 -> 3
  on: FALSE -> TRUE
press it (y)? yes
not pressed
> quit
",
    );
}

/// A start that the library refuses is told, and asked for again.
#[test]
fn starts_that_are_refused() {
    plays(
        &[terms()],
        "\
big ∈ ℤ? 0
fast ∈ BOOL? FALSE
on' ∈ BOOL? TRUE
refusal 18 (log): the initialisation isn't allowed: axiom @axm1: `0 < big` is false at big = 0
big ∈ ℤ? 1
fast ∈ BOOL? FALSE
on' ∈ BOOL? TRUE
refusal 18 (log): the initialisation isn't allowed: action @act3 of event INITIALISATION: `on' = FALSE ∨ on' = fast` is false at fast = FALSE, on' = TRUE
big ∈ ℤ? 1
fast ∈ BOOL? TRUE
on' ∈ BOOL? TRUE
after the initialisation:
  big = 1, fast = TRUE, s = 0, v = 0, on = TRUE
..
> quit
",
    );
}

/// A model of which only the initialisation matters: its constant, and what it sets v to.
fn starting(name: &str, constants: &str, value: &str) -> String {
    let text = format!(
        "context c0 {constants} end
machine m0 sees c0 events event INITIALISATION end end
machine m1 refines m0 sees c0 variables v ∈ ℤ events event INITIALISATION then @act1 v ≔ {value} end end"
    );
    file(name, &text).to_str().expect("UTF-8").to_string()
}

/// A start that asks nothing is refused once; one whose value no log holds is asked for again.
#[test]
fn starts_that_cannot_be() {
    let never = starting("press_never.eb", "", "1 ÷ 0");
    let said = "refusal 17 (undefined): the initialisation: action @act1 of event INITIALISATION: `1 ÷ 0` is undefined: its divisor `0` is 0\nnothing is started\n";
    ends(&[&never], "", said, 1);
    let square = starting("press_square.eb", "constants c ∈ ℤ", "c ∗ c");
    plays(
        &[&square],
        "\
c ∈ ℤ? -46341
v is 2147488281 after the initialisation, and a row of a log holds numbers from −2147483648 to 2147483647
c ∈ ℤ? −46340
after the initialisation:
  c = −46340, v = 2147395600
  there is no event to press
`help` says what can be typed
> quit
",
    );
    let alone = starting("press_alone.eb", "", "−7");
    ends(
        &[&alone],
        "",
        "  v = −7\n  there is no event to press\n`help` says what can be typed\n> \n",
        0,
    );
}

/// The end of input at each kind of prompt, and `quit` at the start.
#[test]
fn ends_of_input() {
    let nothing = "nothing is started\n";
    ends(&[COUNTER], "", &format!("base ∈ ℤ? \n{nothing}"), 1);
    ends(
        &[COUNTER],
        "10",
        &format!("base ∈ ℤ? 10\nlimit ∈ ℤ? \n{nothing}"),
        1,
    );
    ends(
        &[COUNTER],
        "10\nquit\n100\n",
        &format!("limit ∈ ℤ? quit\n{nothing}"),
        1,
    );
    ends(&[COUNTER], "10\n100\n", "can be typed\n> \n", 0);
    ends(
        &[COUNTER],
        "10\n100\nturn\n",
        "> turn\ny ∈ ℤ? \nturn is given up\n",
        0,
    );
    let asked = "  ones: 0 -> 5\npress it (y)? \nnot pressed\n";
    ends(&[COUNTER], "10\n100\nturn\n5\n", asked, 0);
    let unwritten = "y ∈ ℤ? \nturn is given up\n// the run, which isn't written\nINITIALISATION: base = 10, limit = 100, tens = 0, ones = 0\nturn: ones = 5, y = 5, ..\n";
    ends(&[COUNTER], "10\n100\nturn\n5\ny\nturn", unwritten, 0);
}

/// Presses are taken back one by one, to the start and not beyond, and the run goes on from there.
#[test]
fn presses_are_taken_back() {
    plays(
        &["models/free_list.eb"],
        "\
blocks ∈ ℤ? 3
..
> undo
there is no press to take back
> take1
..
press it (y)? y
..
> take2
  free: 2 -> 1
  head: 2 -> 3
  taken2: FALSE -> TRUE
  place2: 2 -> 0
press it (y)? y
..
> undo
step 2 (take2) is taken back
after step 1 (take1):
  blocks = 3, free = 2, head = 2, link1 = 2, link2 = 3, link3 = 0, taken1 = TRUE, taken2 = FALSE,
  taken3 = FALSE, place1 = 0, place2 = 2, place3 = 1
..
> undo
step 1 (take1) is taken back
after the initialisation:
  blocks = 3, free = 3, head = 1, link1 = 2, link2 = 3, link3 = 0, taken1 = FALSE, taken2 = FALSE,
  taken3 = FALSE, place1 = 3, place2 = 2, place3 = 1
   5  take1     enabled
   6  take2     no step: guard @grd1 of event take2: `head = 2` is false at head = 1
..
> undo
there is no press to take back
> run
INITIALISATION: blocks = 3, free = 3, head = 1, link1 = 2, link2 = 3, link3 = 0, taken1 = FALSE, taken2 = FALSE, taken3 = FALSE, place1 = 3, place2 = 2, place3 = 1
> take1
..
press it (y)? y
..
> sweep1
  link1: 2 -> 0
press it (y)? y
..
> quit
// the run, which isn't written
INITIALISATION: blocks = 3, free = 3, head = 1, link1 = 2, link2 = 3, link3 = 0, taken1 = FALSE, taken2 = FALSE, taken3 = FALSE, place1 = 3, place2 = 2, place3 = 1
take1: free = 2, head = 2, taken1 = TRUE, place1 = 0, ..
sweep1: link1 = 0, ..
",
    );
}

/// A log is written once, replayed, gone on from, and written over only if told so. What stands in a file isn't shown at the
/// end.
#[test]
fn logs_are_written_and_gone_on_from() {
    let path = no_file("press_run.log");
    let start = "\
parts ∈ ℤ? 2
reach ∈ ℤ? 5
gap' ∈ ℤ? 0
..
> set_down
gap' ∈ ℤ? 4
  left: 2 -> 1
  gap: 0 -> 4
press it (y)? y
..
> look
d ∈ ℤ? 1
  gap: 4 -> 3
press it (y)? y
..
> log PATH
PATH: written: 2 steps
> log PATH
nothing is written: PATH is there already; `log! PATH` writes over it
> quit
";
    plays(&["models/placing_head.eb"], &start.replace("PATH", &path));
    let accepted = format!("{path}: accepted: 2 steps\n");
    assert_eq!(
        run(&["replay", "models/placing_head.eb", &path]).output,
        accepted
    );
    let onward = "\
after step 2 (look):
  parts = 2, reach = 5, left = 1, gap = 3
   4  set_down  asks gap' ∈ ℤ
   5  approach  enabled
   6  look      asks d ∈ ℤ
`help` says what can be typed
> undo
there is no press to take back
> approach
  gap: 3 -> 2
press it (y)? y
..
> undo
step 3 (approach) is taken back
..
> look
d ∈ ℤ? 2
  gap: 3 -> 1
press it (y)? y
..
> log! PATH
PATH: written: 3 steps
> undo
..
> quit
";
    plays(
        &["models/placing_head.eb", &path],
        &onward.replace("PATH", &path),
    );
    let written = run(&["log", "models/placing_head.eb", &path]).output;
    let steps = "INITIALISATION: parts = 2, reach = 5, left = 2, gap = 0
set_down: left = 1, gap = 4
look: gap = 3, d = 1, ..
look: gap = 1, d = 2, ..
";
    assert_eq!(written, steps);
}

/// A run that was written, taken back and gone on from otherwise isn't written; nor is one of which a part is.
#[test]
fn what_is_not_written_is_shown() {
    let path = no_file("press_kept.txt");
    let session = "\
base ∈ ℤ? 10
limit ∈ ℤ? 100
..
> turn
y ∈ ℤ? 1
  ones: 0 -> 1
press it (y)? y
..
> log PATH
PATH: written: 1 step
> undo
..
> turn
y ∈ ℤ? 2
  ones: 0 -> 2
press it (y)? y
..
> quit
// the run, which isn't written
INITIALISATION: base = 10, limit = 100, tens = 0, ones = 0
turn: ones = 2, y = 2, ..
";
    plays(&[COUNTER], &session.replace("PATH", &path));
    let accepted = format!("{path}: accepted: 1 step\n");
    assert_eq!(run(&["replay", COUNTER, &path]).output, accepted);
    let printed = "> quit\n// the run, which isn't written\nINITIALISATION: base = 10, limit = 100, tens = 0, ones = 0\nturn: ones = 1, y = 1, ..\nturn: ones = 3, y = 2, ..\n";
    ends(&[COUNTER, &path], "turn\n2\ny\nquit\n", printed, 0);
    ends(
        &[COUNTER, &path],
        "turn\n2\nn\nquit\n",
        "not pressed\n> quit\n",
        0,
    );
}

/// What is shown at the end is a log: copied to a file, it is accepted and gone on from.
#[test]
fn what_is_shown_can_be_copied() {
    let ran = run_on(
        &["press", COUNTER],
        "10\n100\nturn\n12\ny\ncarry\ny\n".as_bytes(),
    );
    let (_, copied) = ran.output.split_once("// the run").expect("the run");
    let path = file("press_copied.log", &format!("// the run{copied}"));
    let path = path.to_str().expect("UTF-8");
    let accepted = format!("{path}: accepted: 2 steps\n");
    assert_eq!(run(&["replay", COUNTER, path]).output, accepted);
    ends(
        &[COUNTER, path],
        "state\nquit\n",
        "  base = 10, limit = 100, tens = 1, ones = 2\n> quit\n",
        0,
    );
}

/// Values beyond 32 bits are computed with and shown, but no log holds them.
#[test]
fn values_that_no_log_holds() {
    let path = no_file("press_wide.log");
    let session = "\
big ∈ ℤ? 2147483647
fast ∈ BOOL? FALSE
on' ∈ BOOL? FALSE
..
> go
  s: 0 -> 1
press it (y)? y
..
> square
  v: 0 -> −4611686014132420609
press it (y)? y
after step 2 (square):
  big = 2147483647, fast = FALSE, s = 1, v = −4611686014132420609, on = FALSE
..
> log PATH
nothing is written: v is −4611686014132420609 after step 2, and a row of a log holds numbers from −2147483648 to 2147483647
> log! PATH
nothing is written: v is −4611686014132420609 after step 2, and a row of a log holds numbers from −2147483648 to 2147483647
> part
  nothing changes
press it (y)? n
not pressed
> quit
// the run, which isn't written
INITIALISATION: big = 2147483647, fast = FALSE, s = 0, v = 0, on = FALSE
go: s = 1, ..
square: v = −4611686014132420609, ..
";
    plays(&[terms()], &session.replace("PATH", &path));
    assert!(!Path::new(&path).exists());
}

/// Lines that are nothing here, and an event whose name is a word of the bench, which is chosen by its number.
#[test]
fn words_that_are_not_known() {
    let there_are = "there are: an event's number or name, undo, log PATH, log! PATH, state, events, run, help, quit";
    let session = "\
blocks ∈ ℤ? 3
..
> 
> press take1
`press take1` is no event and no word of the bench; THERE ARE
> log
`log` is no event and no word of the bench; THERE ARE
> borrow
borrow is an event of blocks_free; THERE ARE
> INITIALISATION
the INITIALISATION of list comes first and only once; THERE ARE
> 4
the INITIALISATION of list comes first and only once; THERE ARE
> 2
borrow is an event of blocks_free; THERE ARE
> 14
no event has number 14; THERE ARE
> -1
no event has number -1; THERE ARE
> help
what can be typed:
  an event's number or name  asks what it needs, shows what it would change, and presses it after a y
..
  quit                       leaves; presses that aren't written are shown
> quit
";
    plays(
        &["models/free_list.eb"],
        &session.replace("THERE ARE", there_are),
    );
    plays(
        &[terms()],
        "\
big ∈ ℤ? 1
fast ∈ BOOL? TRUE
on' ∈ BOOL? 1
..
> undo
there is no press to take back
> 9
  nothing changes
press it (y)? y
..
> undo
step 1 (undo) is taken back
..
> quit
",
    );
}

/// Bytes that are no text, and keys that move a cursor, are shown as a sign.
#[test]
fn lines_that_are_no_text() {
    let typed = b"10\n100\n\x1b[A\xff\nquit\n";
    let ran = run_on(&["press", COUNTER], typed);
    let said = "> \u{FFFD}[A\u{FFFD}\n`\u{FFFD}[A\u{FFFD}` is no event and no word of the bench; ";
    assert!(ran.output.contains(said), "{}", ran.output);
    assert_eq!(ran.status, Some(0));
}

/// A path at which nothing can be written is told, and the run stays unwritten.
#[test]
fn logs_that_cannot_be_written() {
    let typed = "10\n100\nturn\n1\ny\nlog models\nlog! models\nlog nowhere/run.log\nquit\n";
    let ran = run_on(&["press", COUNTER], typed.as_bytes());
    let told = [
        "nothing is written: models is there already; `log! models` writes over it\n",
        "nothing is written: models: cannot write it: ",
        "nothing is written: nowhere/run.log: cannot write it: ",
        "> quit\n// the run, which isn't written\n",
    ];
    for line in told {
        assert!(ran.output.contains(line), "{line}{}", ran.output);
    }
}

/// A table without names has those that `text` invents.
#[test]
fn names_of_a_table() {
    plays(
        &["models/placing_head.txt"],
        "\
c1 ∈ ℤ? 2
c2 ∈ ℤ? 5
v5' ∈ ℤ? 1
after the initialisation:
  c1 = 2, c2 = 5, v4 = 2, v5 = 1
   4  e4  asks v5' ∈ ℤ
   5  e5  enabled
   6  e6  asks p6 ∈ ℤ
..
> e5
  v5: 1 -> 0
press it (y)? y
..
> quit
// the run, which isn't written
INITIALISATION: c1 = 2, c2 = 5, v4 = 2, v5 = 1
e5: v5 = 0, ..
",
    );
    let text = run(&["text", "models/placing_head.txt"]).output;
    for line in [
        "  c1, c2 ∈ ℤ\n",
        "  v4, v5 ∈ ℤ\n",
        "      p6 ∈ ℤ\n",
        " event e5\n",
    ] {
        assert!(text.contains(line), "{line}{text}");
    }
}

/// A log that is refused or can't be read is told as `replay` tells it, and nothing is asked.
#[test]
fn logs_that_are_refused() {
    let model = "models/free_list.eb";
    let missing = "models/nothing.log";
    let mistake = file("press_mistake.log", "INITIALISATION: blocks = 3, fre = 3\n");
    let empty = file("press_empty.log", "");
    let logs = [
        "models/double_release.log",
        missing,
        mistake.to_str().expect("UTF-8"),
        empty.to_str().expect("UTF-8"),
    ];
    for (log, status) in logs.into_iter().zip([1, 2, 2, 1]) {
        let pressed = run_on(&["press", model, log], b"take1\ny\n");
        assert_eq!(pressed, run(&["replay", model, log]));
        assert_eq!(pressed.status, Some(status), "{pressed:?}");
    }
}

/// The model without the guards goes on where the log with the double release ends.
#[test]
fn a_log_as_a_text() {
    let words = ["models/double_release.eb", "models/double_release.log"];
    let state = "after step 5 (release2):
  blocks = 3, free = 4, head = 2, link1 = 1, link2 = 1, link3 = 0, taken1 = FALSE, taken2 = FALSE,
  taken3 = FALSE, place1 = 3, place2 = 4, place3 = 1
> quit
";
    ends(&words, "state\nquit\n", state, 0);
}

/// Output that isn't taken ends the session.
#[test]
fn output_that_is_not_taken() {
    let full = File::options().write(true).open("/dev/full");
    let mut command = program(&["press", "models/free_list.eb", "models/free_list.log"]);
    let ran = command.stdout(full.expect("Linux")).output();
    let ran = Ran::of(ran.expect("it runs"));
    assert!(ran.message.starts_with("cannot write: "), "{ran:?}");
    assert_eq!(ran.status, Some(2));
    let mut command = program(&["press", "models/free_list.eb"]);
    command
        .stdin(Stdio::piped())
        .stdout(Stdio::piped())
        .stderr(Stdio::piped());
    let mut child = command.spawn().expect("it runs");
    drop(child.stdout.take());
    let ran = Ran::of(child.wait_with_output().expect("it ends"));
    assert_eq!((ran.message.as_str(), ran.status), ("", Some(2)));
}

/// The rows that are written are those that the library takes, byte for byte those of the log as rows.
#[test]
fn the_rows_of_a_log_come_back() {
    let path = no_file("press_again.log");
    let typed = format!("log {path}\n");
    let words = ["press", "models/free_list.eb", "models/free_list.log"];
    let ran = run_on(&words, typed.as_bytes());
    assert!(
        ran.output.contains(": written: 5 steps\n"),
        "{}",
        ran.output
    );
    let rows = run(&["rows", "models/free_list.eb", "models/free_list.log"]).output;
    assert_eq!(read_to_string(&path).expect("a log"), rows);
}
