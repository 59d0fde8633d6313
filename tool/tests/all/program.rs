//! The program by its commands: what each writes where, and the exit status.

use crate::common::{file, model, program, run, run_on, text_of, Ran};
use std::fs::File;
use std::process::Stdio;

/// A model with a sequent of every kind.
const ALL_KINDS: &str = "\
context c0
constants c ∈ ℤ
axioms
  @axm1 c ≠ 0
  @axm2 12 ÷ c = 3
end
machine m0 sees c0
variables a, s ∈ ℤ
invariants
  @inv1 0 ≤ a
  @inv2 a mod c = 0
events
  event INITIALISATION then @act1 a ≔ 0 @act2 s ≔ 0 end
  event step any x ∈ ℤ where @grd1 0 ≤ x @grd2 x ÷ c = 1 then @act1 a ≔ a + x ÷ c end
  event pick then @act1 a :∣ 0 ≤ a' end
end
machine m1 refines m0 sees c0
variables s, w ∈ ℤ
invariants
  @inv1 a = w
  @inv2 0 ≤ w ÷ c
variant w ÷ c
events
  event INITIALISATION with @a' a' = w' then @act1 s ≔ 0 @act2 w ≔ 0 end
  event move refines step
    any y ∈ ℤ
    where @grd1 y ÷ c = 1
    with @x x = y ÷ 1 @a' a' = w' ÷ 1
    then @act1 w ≔ w + y ÷ c
  end
  event choose refines pick with @a' a' = w' then @act1 w :∣ 0 ≤ w' ÷ c end
  convergent event down when @grd1 0 < w then @act1 w ≔ w − 1 end
  anticipated event idle end
end
";

/// Its sequents, in the order of the scope paper.
const ALL_LISTED: &str = "    1  c0  axm2/WD
    2  m0  inv2/WD
    3  m1  inv2/WD
    4  m1  VWD
    5  m0  INITIALISATION/inv1/INV
    6  m0  INITIALISATION/inv2/INV
    7  m0  step/grd2/WD
    8  m0  step/act1/WD
    9  m0  step/inv1/INV
   10  m0  step/inv2/INV
   11  m0  pick/act1/FIS
   12  m0  pick/inv1/INV
   13  m0  pick/inv2/INV
   14  m1  INITIALISATION/a'/WFIS
   15  m1  INITIALISATION/act1/SIM
   16  m1  INITIALISATION/act2/SIM
   17  m1  INITIALISATION/inv1/INV
   18  m1  INITIALISATION/inv2/INV
   19  m1  move/grd1/WD
   20  m1  move/act1/WD
   21  m1  move/x/WWD
   22  m1  move/x/WFIS
   23  m1  move/a'/WWD
   24  m1  move/a'/WFIS
   25  m1  move/grd1/GRD
   26  m1  move/grd2/GRD
   27  m1  move/act1/SIM
   28  m1  move/s/EQL
   29  m1  move/inv1/INV
   30  m1  move/inv2/INV
   31  m1  choose/act1/WD
   32  m1  choose/act1/FIS
   33  m1  choose/a'/WFIS
   34  m1  choose/act1/SIM
   35  m1  choose/s/EQL
   36  m1  choose/inv1/INV
   37  m1  choose/inv2/INV
   38  m1  down/s/EQL
   39  m1  down/inv1/INV
   40  m1  down/inv2/INV
   41  m1  down/NAT
   42  m1  down/VAR
   43  m1  idle/s/EQL
   44  m1  idle/VAR
";

/// The program accepts, and writes this.
fn gives(words: &[&str], output: &str) {
    let expected = Ran {
        output: output.to_string(),
        message: String::new(),
        status: Some(0),
    };
    assert_eq!(run(words), expected, "{words:?}");
}

/// The program can't do it: nothing on standard output, status 2, and a message that begins so.
fn cannot(words: &[&str], message: &str) {
    let ran = run(words);
    assert!(ran.message.starts_with(message), "{words:?}: {ran:?}");
    let ended = (ran.output.as_str(), ran.status);
    assert_eq!(ended, ("", Some(2)), "{words:?}");
}

/// Lines of words and messages: the program can't do it, with the counter's model as FILE.
fn cannot_each(lines: &str) {
    for line in lines.trim().lines() {
        let (words, message) = line.split_once(" → ").expect("words and a message");
        let words = words.replace("FILE", "models/counter.eb");
        cannot(&words.split(' ').collect::<Vec<_>>(), message);
    }
}

#[test]
fn check() {
    gives(
        &["check", "models/counter.eb"],
        "models/counter.eb: accepted, 33 sequents\n",
    );
    let one = "machine m variables v ∈ ℤ events event INITIALISATION then @act1 v ≔ 0 end end
machine n refines m variables v ∈ ℤ events event INITIALISATION then @act1 v ≔ 0 end end";
    let one = run_on(&["check", "-"], one.as_bytes());
    assert_eq!(one.output, "-: accepted, 1 sequent\n");
}

#[test]
fn print_and_table() {
    gives(&["print", "models/counter.eb"], &text_of("counter.out"));
    let table = run(&["table", "models/counter.eb"]);
    assert_eq!((table.output.len(), table.status), (140 * 38, Some(0)));
    let rows = run(&["table", "models/counter.txt"]);
    assert_eq!(rows, table);
}

/// A refused model: its table can be had, a row 89 is printed, and other commands say on standard error why.
#[test]
fn refused() {
    let file = "models/refused.eb";
    let checked = run(&["check", file]);
    let said = "models/refused.eb:17: refusal 8 (sort), row 12: guard @grd1 of event count";
    assert!(checked.output.starts_with(said), "{checked:?}");
    assert_eq!((checked.message.as_str(), checked.status), ("", Some(1)));
    let refused = |words: &[&str], output: &str| {
        let expected = Ran {
            output: output.to_string(),
            message: checked.output.clone(),
            status: Some(1),
        };
        assert_eq!(run(words), expected, "{words:?}");
    };
    refused(&["print", file], &text_of("refused.out"));
    refused(&["text", file], "");
    refused(&["list", file], "");
    refused(&["show", file, "1"], "");
    refused(&["smt", file], "");
    refused(&["smt", file, "1"], "");
    refused(&["discharge", file], "");
    refused(&["refute", file], "");
    refused(&["press", file], "");
    refused(&["press", file, "models/free_list.log"], "");
    let table = run(&["table", file]);
    assert_eq!(table, run(&["table", "models/refused.txt"]));
    assert_eq!((table.output.len(), table.status), (15 * 38, Some(0)));
}

#[test]
fn text() {
    let text = run(&["text", "models/placing_head.txt"]);
    assert_eq!(text.status, Some(0));
    assert!(text
        .output
        .starts_with("context c0\nconstants\n  c1, c2 ∈ ℤ\n"));
    let table = run_on(&["table", "-"], text.output.as_bytes());
    assert_eq!(table, run(&["table", "models/placing_head.txt"]));
    let again = run_on(&["text", "-"], text.output.as_bytes());
    assert_eq!(again, text);
}

#[test]
fn standard_input() {
    let table = run(&["table", "models/free_list.eb"]).output;
    let forms = [
        model("free_list.eb"),
        model("free_list.txt"),
        table.into_bytes(),
    ];
    for form in forms {
        let printed = run_on(&["print", "-"], &form);
        assert!(printed.output == text_of("free_list.out"));
        assert_eq!((printed.message.as_str(), printed.status), ("", Some(0)));
    }
    let mistake = run_on(&["check", "-"], b"machine m\nvariables 7");
    assert!(
        mistake.message.starts_with("-:2:11: expected "),
        "{mistake:?}"
    );
    assert_eq!(mistake.status, Some(2));
}

#[test]
fn list() {
    let path = file("all_kinds.eb", ALL_KINDS);
    let path = path.to_str().expect("UTF-8");
    gives(&["list", path], ALL_LISTED);
    let listed = |passes: &dyn Fn(&str) -> bool| -> String {
        let lines = ALL_LISTED.lines().filter(|line| passes(line));
        lines.map(|line| format!("{line}\n")).collect()
    };
    for event in ["INITIALISATION", "step", "move", "down", "idle"] {
        let lines = listed(&|line| line.contains(&format!("  {event}/")));
        gives(&["list", path, "--event", event], &lines);
    }
    for kind in ["INV", "FIS", "GRD", "WFIS", "NAT", "VAR", "EQL", "WWD"] {
        let lines = listed(&|line| line.ends_with(&format!("/{kind}")));
        assert!(!lines.is_empty(), "{kind}");
        gives(&["list", path, "--kind", kind], &lines);
    }
    gives(&["list", path, "--kind", "VWD"], "    4  m1  VWD\n");
    let lines = listed(&|line| line.ends_with("WD"));
    gives(&["list", path, "--kind", "WD"], &lines);
    let lines = listed(&|line| line.ends_with("/SIM") || line.ends_with("/EQL"));
    gives(&["list", path, "--kind", "SIM"], &lines);
    let both = ["list", path, "--kind", "SIM", "--event", "down"];
    gives(&both, "   38  m1  down/s/EQL\n");
    gives(&["list", path, "--event", "step", "--kind", "NAT"], "");
    let lines = listed(&|line| line.ends_with("/NAT") || line.ends_with("/VAR"));
    gives(&["list", path, "--kind", "VAR", "--kind", "NAT"], &lines);
}

#[test]
fn show() {
    let sequent = "\
sequent 33 of 33: carry/VAR in wheels
  axioms
    axm1  2 ≤ base
    axm2  0 ≤ limit
  invariants of counter
    inv1  0 ≤ done
    inv2  done ≤ limit
  invariants of wheels
    inv1  done = base ∗ tens + ones
    inv2  0 ≤ tens
    inv3  0 ≤ ones
  guards of carry
    grd1  base ≤ ones
  actions of carry
    act1  tens' = tens + ones ÷ base
    act2  ones' = ones mod base
  ⊢ ones' < ones
";
    gives(&["show", "models/counter.eb", "33"], sequent);
    gives(&["show", "models/counter.eb", "carry/VAR"], sequent);
    let both = run(&["show", "models/counter.eb", "INITIALISATION/inv1/INV"]).output;
    let one = |k| run(&["show", "models/counter.eb", k]).output;
    assert_eq!(both, one("1") + &one("10"));
}

#[test]
fn show_what_an_event_does_not_set() {
    let unset = "\
sequent 38 of 44: down/s/EQL in m1
  axioms
    axm1  c ≠ 0
    axm2  12 ÷ c = 3
  invariants of m0
    inv1  0 ≤ a
    inv2  a mod c = 0
  invariants of m1
    inv1  a = w
    inv2  0 ≤ w ÷ c
  guards of down
    grd1  0 < w
  actions of down
    s     s' = s
    act1  w' = w − 1
  ⊢ s' = s
";
    let shown = run_on(&["show", "-", "38"], ALL_KINDS.as_bytes());
    assert_eq!(shown.output, unset);
}

#[test]
fn smt() {
    let all = run(&["smt", "models/counter.eb"]);
    assert_eq!((all.message.as_str(), all.status), ("", Some(0)));
    assert_eq!(all.output.matches("\n; sequent ").count(), 33);
    assert_eq!(all.output.matches("(check-sat)\n(reset)\n").count(), 32);
    assert!(all.output.ends_with("(check-sat)\n"));
    let one = run(&["smt", "models/counter.eb", "29"]);
    assert!(one.output.ends_with("(check-sat)\n") && !one.output.contains("push"));
    assert_eq!(run(&["smt", "models/counter.eb", "carry/inv1/INV"]), one);
    let (preamble, question) = one.output.split_once("; sequent ").expect("a sequent");
    assert!(all.output.starts_with(preamble) && all.output.contains(question));
}

#[test]
fn refute() {
    gives(&["refute", "models/L.txt"], "0 of 2 sequents refuted\n");
    let refuted = run(&["refute", "models/double_release.eb", "-1", "4"]);
    assert!(refuted.output.ends_with("6 of 138 sequents refuted\n"));
    assert_eq!((refuted.message.as_str(), refuted.status), ("", Some(1)));
}

#[test]
fn help() {
    let usage = run(&["help"]);
    assert!(usage.output.starts_with("use: sifthorma COMMAND FILE"));
    assert_eq!((usage.message.as_str(), usage.status), ("", Some(0)));
    assert_eq!(run(&["--help"]), usage);
    assert_eq!(run(&["-h"]), usage);
    cannot(&[], &usage.output);
}

#[test]
fn what_cannot_be_read() {
    cannot(
        &["check", "models/nothing.eb"],
        "models/nothing.eb: cannot read it: ",
    );
    cannot(&["check", "models"], "models: cannot read it: ");
    let path = file(
        "mistake.eb",
        "machine m\nvariables v ∈ ℤ\nevents\n  event go\n    then @act1 u ≔ 0\n  end\nend\n",
    );
    let path = path.to_str().expect("UTF-8");
    let message = format!("{path}:5:16: `u` isn't declared");
    for command in ["check", "table", "print", "text", "list", "smt", "refute"] {
        cannot(&[command, path], &message);
    }
}

#[test]
fn what_is_no_command() {
    cannot_each(
        "
chek FILE → `chek` is no command
check → `check` takes other words than these
check FILE FILE → `check` takes other words than these
show FILE → `show` takes other words than these
show FILE carry/inv9/INV → models/counter.eb: no sequent has the label `carry/inv9/INV`
smt FILE carry/inv9/INV → models/counter.eb: no sequent has the label `carry/inv9/INV`
refute FILE 1 → `refute` takes other words than these
refute FILE 1 x → expected a number, found `x`
refute FILE 2 1 → no number lies between 2 and 1
replay FILE → `replay` takes other words than these
log FILE → `log` takes other words than these
rows FILE → `rows` takes other words than these
press → `press` takes other words than these
press FILE FILE FILE → `press` takes other words than these
press - → standard input is what is typed at the bench
press - FILE → standard input is what is typed at the bench
press FILE - → standard input is what is typed at the bench
",
    );
}

#[test]
fn what_is_no_option() {
    cannot_each(
        "
list FILE carry → `carry` is no option
list FILE --event → expected a word after `--event`
list FILE --events carry → `--events` is no option of list
list FILE --event cary → models/counter.eb: no event is named `cary`
list FILE --kind inv → no kind is named `inv`; the kinds are WD, INV, FIS, GRD, SIM, WFIS, NAT, VAR, VWD, WWD, EQL
discharge FILE --job 2 → `--job` is no option of discharge
discharge FILE --timeout 0 → expected a number from 1 to 1000000, found `0`
discharge FILE --jobs x → expected a number, found `x`
",
    );
}

/// The lines of ../README.md that run the program. Provers are optional.
#[test]
fn what_the_readme_runs() {
    let readme = include_str!("../../../README.md");
    let start = "    tool/target/release/sifthorma ";
    let lines = readme.lines().filter_map(|line| line.strip_prefix(start));
    let lines: Vec<&str> = lines
        .filter(|line| !line.starts_with("discharge "))
        .collect();
    assert!(lines.len() >= 3, "{lines:?}");
    for line in lines {
        let ran = run(&line.split(' ').collect::<Vec<_>>());
        assert_eq!(
            (ran.message.as_str(), ran.status),
            ("", Some(0)),
            "{line}: {ran:?}"
        );
    }
}

/// A device that takes nothing, as a full disk.
#[test]
fn what_cannot_be_written() {
    for words in [
        ["check", "models/counter.eb"],
        ["check", "models/refused.eb"],
    ] {
        let full = File::options()
            .write(true)
            .open("/dev/full")
            .expect("Linux");
        let ran = Ran::of(program(&words).stdout(full).output().expect("it runs"));
        assert!(ran.message.starts_with("cannot write: "), "{ran:?}");
        assert_eq!(ran.status, Some(2));
    }
}

/// A reader that has gone, as `head` has when it has seen enough, is told by the status alone.
#[test]
fn what_nobody_reads() {
    let mut command = program(&["print", "models/free_list.eb"]);
    command.stdout(Stdio::piped()).stderr(Stdio::piped());
    let mut child = command.spawn().expect("it runs");
    drop(child.stdout.take());
    let ran = Ran::of(child.wait_with_output().expect("it ends"));
    assert_eq!((ran.message.as_str(), ran.status), ("", Some(2)));
}
