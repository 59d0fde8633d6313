//! Provers as programs: each of these is a script of sh, so that no prover need be installed.

use crate::common::{file, program, run, Ran};
use sifthorma::answers::{answer, Answer};
use sifthorma::evaluate::{Value, Values};
use sifthorma::formula::Mention;
use std::path::{Path, PathBuf};
use std::time::{Duration, Instant};

/// v loses its invariant at down. Its four sequents are those of INITIALISATION and of down, in m and in n.
const DOWN: &str = "\
machine m variables v ∈ ℤ invariants @inv1 0 ≤ v events
  event INITIALISATION then @act1 v ≔ 0 end
  event down then @act1 v ≔ v − 1 end
end
machine n refines m variables v ∈ ℤ events
  event INITIALISATION then @act1 v ≔ 0 end
  event down refines down then @act1 v ≔ v − 1 end
end
";

/// Answers as a prover does of a model that is in order: no values meet a denied goal, some meet the hypotheses.
const IN_ORDER: &str = "if grep -q 'the goal, denied'; then echo unsat; else echo sat; fi";

/// The command of a prover that does this.
fn prover(name: &str, script: &str) -> String {
    format!("sh {}", file(name, script).display())
}

fn discharge(model: &Path, provers: &[&str], more: &[&str]) -> Ran {
    let named = provers.iter().flat_map(|prover| ["--prover", prover]);
    let model = model.to_str().expect("UTF-8");
    let words: Vec<&str> = ["discharge", model].into_iter().chain(named).collect();
    run(&[&words[..], more].concat())
}

/// What is said of down in m by a prover that answers so there, and as one of a model in order elsewhere.
fn said_of_down(name: &str, answer: &str) -> (String, String) {
    let asked = "input=$(cat); case $input in *'sequent 2: down/inv1/INV'*)";
    let script = format!("{asked} {answer};; *) echo \"$input\" | {{ {IN_ORDER}; }};; esac");
    let prover = prover(name, &script);
    let model = file(&format!("{name}.eb"), DOWN);
    let ran = discharge(&model, &[&prover], &["--timeout", "3"]);
    assert_eq!((ran.message.as_str(), ran.status), ("", Some(1)));
    let table = "\
discharged             WD     INV     FIS     GRD     SIM    WFIS     NAT     VAR
m, INITIALISATION             1/1
m, down                       0/1
n, INITIALISATION                                     1/1
n, down                                               1/1
    2  m  down/inv1/INV: ";
    let said = ran.output.strip_prefix(table).expect(&ran.output);
    let said = said.strip_suffix("3 of 4 sequents discharged\n");
    (said.expect(&ran.output).to_string(), prover)
}

#[test]
fn all_are_discharged() {
    let table = "\
discharged                   WD     INV     FIS     GRD     SIM    WFIS     NAT     VAR
counter, INITIALISATION             2/2
counter, count                      2/2
counter, correct                    2/2     1/1
wheels, INITIALISATION              3/3                     1/1     1/1
wheels, turn                        3/3             2/2     1/1     2/2
wheels, turn_back                   3/3     1/1             1/1     1/1
wheels, carry               2/2     3/3                                     1/1     1/1
33 of 33 sequents discharged
";
    let in_order = prover("in_order.sh", IN_ORDER);
    for jobs in ["1", "7"] {
        let counter = Path::new("models/counter.eb");
        let ran = discharge(counter, &[&in_order], &["--jobs", jobs]);
        assert_eq!(ran.output, table);
        assert_eq!((ran.message.as_str(), ran.status), ("", Some(0)));
    }
}

#[test]
fn values_that_refute() {
    let (said, prover) = said_of_down("refutes.sh", "echo sat; echo \"((v 0) (|v'| (- 1)))\"");
    let values = "           v = 0\n           v' = −1\n";
    assert_eq!(said, format!("refuted by {prover}\n{values}"));
}

#[test]
fn values_that_do_not_refute() {
    let doubt = "but its values don't refute the sequent: the answer is in doubt";
    let (said, prover) = said_of_down("valid.sh", "echo sat; echo \"((v 5) (|v'| 4))\"");
    let values = "           v = 5\n           v' = 4\n";
    assert_eq!(said, format!("refuted by {prover}, {doubt}\n{values}"));
    let (said, prover) = said_of_down("breaks.sh", "echo sat; echo \"((v 0) (|v'| (- 9)))\"");
    let values = "           v = 0\n           v' = −9\n";
    assert_eq!(said, format!("refuted by {prover}, {doubt}\n{values}"));
    let (said, prover) = said_of_down("silent.sh", "echo sat");
    assert_eq!(said, format!("refuted by {prover}, {doubt}\n"));
}

#[test]
fn no_answer() {
    let (said, prover) = said_of_down("unknown.sh", "echo unknown");
    assert_eq!(said, format!("open ({prover}: unknown)\n"));
    let error = "echo '(error \"line 3\")'; echo unsat";
    let (said, prover) = said_of_down("error.sh", error);
    assert_eq!(said, format!("open ({prover}: (error \"line 3\"))\n"));
    let (said, prover) = said_of_down("nothing.sh", "exit 3");
    assert_eq!(
        said,
        format!("open ({prover}: it ended without an answer)\n")
    );
    let started = Instant::now();
    let (said, prover) = said_of_down("endless.sh", "exec yes");
    assert_eq!(said, format!("open ({prover}: y)\n"));
    assert!(started.elapsed() < Duration::from_secs(3));
    let (said, prover) = said_of_down("long.sh", "yes | tr -d '\\n'");
    assert_eq!(said, format!("open ({prover}: {})\n", "y".repeat(200)));
}

/// A prover that is late is stopped, and what it has started isn't waited for.
#[test]
fn late_provers_are_stopped() {
    let started = Instant::now();
    let number = Path::new(env!("CARGO_TARGET_TMPDIR")).join("late.pid");
    let late = format!("echo $$ >{}; exec sleep 60", number.display());
    let (said, prover) = said_of_down("late.sh", &late);
    assert_eq!(said, format!("open ({prover}: no answer within 3 s)\n"));
    let number = std::fs::read_to_string(number).expect("it was started");
    let process = PathBuf::from(format!("/proc/{}", number.trim()));
    assert!(Path::new("/proc/self").exists() && !process.exists());
    let (said, prover) = said_of_down("outlived.sh", "sleep 20");
    assert_eq!(said, format!("open ({prover}: no answer within 3 s)\n"));
    assert!(started.elapsed() < Duration::from_secs(15));
}

#[test]
fn provers_in_turn() {
    let unknown = prover("turn_unknown.sh", "echo unknown");
    let other = prover("turn_other.sh", "echo perhaps");
    let in_order = prover("turn_in_order.sh", IN_ORDER);
    let model = Path::new("models/L.txt");
    let ran = discharge(model, &[&unknown, &other, &in_order], &[]);
    assert!(ran.output.ends_with("\n2 of 2 sequents discharged\n"));
    assert_eq!(ran.status, Some(0));
    let ran = discharge(model, &[&unknown, &other], &[]);
    let open = format!("INITIALISATION/act1/SIM: open ({unknown}: unknown; {other}: perhaps)\n");
    assert!(ran.output.contains(&open), "{}", ran.output);
    assert!(ran.output.ends_with("\n0 of 2 sequents discharged\n"));
    assert_eq!(ran.status, Some(1));
}

/// A prover isn't asked where one before it has answered.
#[test]
fn the_first_answer_counts() {
    let asked = file("first_asked", "");
    let script = format!("cat >>{}; echo sat", asked.display());
    let first = prover("first_in_order.sh", IN_ORDER);
    let second = prover("first_other.sh", &script);
    let ran = discharge(Path::new("models/L.txt"), &[&first, &second], &[]);
    assert!(ran.output.ends_with("\n2 of 2 sequents discharged\n"));
    assert_eq!(std::fs::read_to_string(asked).expect("a file"), "");
}

/// One that says unsat to all says so of the axioms too.
#[test]
fn hypotheses_that_contradict_each_other() {
    let warning = "warning: these contradict each other or the hypotheses before them, so that everything follows:\n";
    let counter = Path::new("models/counter.eb");
    let all = prover("all_unsat.sh", "echo unsat");
    let ran = discharge(counter, &[&all], &[]);
    let end = format!("{warning}    axioms: sequents 1 to 33\n33 of 33 sequents discharged\n");
    assert!(ran.output.ends_with(&end), "{}", ran.output);
    assert_eq!(ran.status, Some(0));
    let guarded = "input=$(cat); case $input in *'the goal, denied'* | *'(<= base ones)'* | *\"(= x y)\"*) echo unsat;; *) echo sat;; esac";
    let ran = discharge(counter, &[&prover("guards_unsat.sh", guarded)], &[]);
    let parts =
        "    witnesses of turn: sequents 15 to 20\n    guards of carry: sequents 27 to 33\n";
    let end = format!("{warning}{parts}33 of 33 sequents discharged\n");
    assert!(ran.output.ends_with(&end), "{}", ran.output);
}

/// A sequent without hypotheses has none that contradict each other.
#[test]
fn no_hypotheses() {
    let text = DOWN.replace(
        "machine m variables",
        "context c0 constants c ∈ ℤ axioms @axm1 7 ÷ c = 1 end machine m sees c0 variables",
    );
    let model = file("no_hypotheses.eb", &text);
    let ran = discharge(&model, &[&prover("none.sh", "echo unsat")], &[]);
    assert!(ran.output.contains("    axioms: sequents 2 to 5\n"));
    assert_eq!(ran.status, Some(0));
}

#[test]
fn jobs() {
    let slow = prover("slow.sh", &format!("sleep 0.5; {IN_ORDER}"));
    let took = |jobs| {
        let started = Instant::now();
        let ran = discharge(Path::new("models/L.txt"), &[&slow], &["--jobs", jobs]);
        assert_eq!(ran.status, Some(0));
        started.elapsed()
    };
    // two sequents and two lists of hypotheses
    let one = took("1");
    assert!(one >= Duration::from_secs(2));
    assert!(took("2") < one);
}

#[test]
fn provers_that_are_not_there() {
    let ran = discharge(Path::new("models/L.txt"), &["no-such-prover -x"], &[]);
    let said = "cannot run the prover `no-such-prover -x`: No such file";
    assert!(ran.message.starts_with(said), "{}", ran.message);
    let without = program(&["discharge", "models/L.txt"])
        .env("PATH", "")
        .output();
    let without = Ran::of(without.expect("it runs"));
    assert!(without.message.starts_with("no prover is found\n"));
    for ran in [ran, without] {
        for word in [
            "apt install z3",
            "https://cvc5.github.io",
            "--prover COMMAND",
        ] {
            assert!(ran.message.contains(word), "{}", ran.message);
        }
        assert_eq!((ran.output.as_str(), ran.status), ("", Some(2)));
    }
}

#[test]
fn printed_values() {
    let name = |identifier, after| Mention { identifier, after };
    let asked = [name(1, false), name(1, true), name(2, false)];
    let sat = |values: &[(Mention, Value)]| Answer::Sat(Values::from_iter(values.iter().copied()));
    let values = [
        (asked[0], Value::Integer(-12)),
        (asked[1], Value::Truth(true)),
        (asked[2], Value::Integer(170_141_183_460_469_231_731)),
    ];
    let printed = "\n sat \r\n((a (- 12))\n (|b'\u{20}(c)| true) (d 170141183460469231731))\n";
    assert_eq!(answer(printed, &asked), sat(&values));
    let unread = "sat\n((a (/ 1 2)) (b true) (c (- 1 2)))";
    assert_eq!(answer(unread, &asked), sat(&values[1..2]));
    assert_eq!(answer("sat\n((a (- 12))", &asked), sat(&[]));
    assert_eq!(
        answer("unsat\n(error \"no model\")\n", &asked),
        Answer::Unsat
    );
    for other in ["unsatisfiable", "(unsat)", "timeout", ""] {
        let said = Answer::Neither(other.to_string());
        assert_eq!(answer(other, &asked), said);
    }
}
