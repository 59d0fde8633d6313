//! Refusals in words: the library's number and row, the line where the fault was typed, what is wrong in the model's names.

use crate::common::{edited, file, run, text_of};
use sifthorma::library::check;
use sifthorma::refusal::{report, word};
use sifthorma::source::Source;
use std::collections::BTreeSet;

/// A place of a text as it is and as it is changed. The line that a refusal has to name ends with the comment `here`.
type Edit<'a> = (&'a str, &'a str);

/// A model with some places changed is refused with this number, in these words; ` .. ` stands for others.
fn refuses(number: u64, model: &str, edits: &[Edit], words: &str) {
    let edit = |text: String, (from, to): &Edit| edited(&text, from, to);
    let text = edits.iter().fold(text_of(model), edit);
    refuses_text(number, model, &text, words);
}

fn refuses_text(number: u64, file: &str, text: &str, words: &str) {
    let here = |line: &str| line.ends_with("// here") || line.ends_with("# here");
    let place = match text.lines().position(here) {
        Some(line) => format!("{file}:{}", line + 1),
        None => file.to_string(),
    };
    let source = Source::of(file, text.as_bytes()).expect("no mistake");
    let refusal = check(&source.bytes).expect_err("a refusal");
    let (word, row) = (word(number), refusal.row);
    let head = format!("{place}: refusal {number} ({word}), row {row}: ");
    let report = report(&source, refusal);
    let (said, look_for) = report.split_once('\n').expect("two lines");
    assert!(said.starts_with(&head), "{said}\n{head}");
    for part in words.split(" .. ") {
        assert!(said[head.len()..].contains(part), "{said}\n{part}");
    }
    let look_for = look_for.strip_prefix("    look for: ").expect(look_for);
    assert!(look_for.len() > 20 && look_for.ends_with('\n'), "{report}");
}

/// Cases of three lines each: a place of the model, how it is changed, the words. `\n` begins a new line.
fn refuses_each(number: u64, model: &str, cases: &str) {
    for case in cases.trim().split("\n\n") {
        let lines: Vec<String> = case.lines().map(|line| line.replace("\\n", "\n")).collect();
        let [from, to, words] = &lines[..] else {
            panic!("{case}");
        };
        refuses(number, model, &[(from, to)], words);
    }
}

/// So many pieces of text, each with its number.
fn many(count: usize, piece: &str) -> String {
    let pieces = (1..=count).map(|number| piece.replace('#', &number.to_string()));
    pieces.collect()
}

#[test]
fn frame() {
    let row = text_of("refused.out");
    let words = "whole rows of 38 bytes";
    refuses_text(1, "a.table", &row[..37], words);
    refuses_text(1, "a.table", &(row.clone() + "\n"), words);
    refuses_text(1, "long.table", &row.repeat(1725), "longer than 65,536");
}

#[test]
fn column() {
    let cases = "
@axm1 2 ≤ base
@axm1 2147483648 ≤ base // here
`2147483648` in axiom @axm1: a number lies between −2147483648 and 2147483647

@axm1 2 ≤ base
@axm1 −2147483649 ≤ base // here
`-2147483649` in axiom @axm1: a number lies between
";
    refuses_each(2, "counter.eb", cases);
    let cases = "
40 2 0 0   # 2: concrete initialisation
40 2 O 0 # here
`40 2 O 0` isn't in the row form

51 1 1 1   # u := 0
51 1 +1 1 # here
`51 1 +1 1` isn't in the row form
";
    refuses_each(2, "L.txt", cases);
}

#[test]
fn tag() {
    let cases = "
40 2 0 0   # 2: concrete initialisation
31 5 0 0 # here
tag 31 after tag 40

40 2 0 0   # 2: concrete initialisation
41 2 0 0 # here
there is no such tag
";
    refuses_each(3, "L.txt", cases);
    let guard = "50    7   91    0   # carry, guard: base ≤ ones";
    let words = "guard .. a column that tag 50 doesn't use isn't 0";
    refuses(3, "counter.txt", &[(guard, "50 7 0 91 # here")], words);
}

#[test]
fn full() {
    let constants = format!("limit{} ∈ ℤ   //", many(58, ", k#"));
    let parameter = ("      y ∈ ℤ", "      y ∈ ℤ // here");
    let words = "concrete parameter y: one more than a table takes: 64 identifiers";
    let edits = [("limit ∈ ℤ   //", &*constants), parameter];
    refuses(4, "counter.eb", &edits, words);
    let events = many(26, "anticipated event k# end\n");
    let edits = [
        ("// the low wheel hands", &*format!("{events}//")),
        ("convergent event carry", "convergent event carry // here"),
    ];
    refuses(
        4,
        "counter.eb",
        &edits,
        "event carry of wheels .. 32 events",
    );
}

#[test]
fn full_of_formulas() {
    for (from, to, words) in [
        (
            "variant ones",
            many(250, " + 1"),
            "in the variant: .. 512 nodes",
        ),
        (
            "@axm2 0 ≤ limit",
            many(15, "\n@k# 0 ≤ limit"),
            "axiom @k15 .. 16 axioms",
        ),
        (
            "@inv2 done ≤ limit",
            many(15, "\n@k# ⊤"),
            "@k15 of counter .. 16 invariants",
        ),
        (
            "@inv3 0 ≤ ones",
            many(14, "\n@k# ⊤"),
            "@k14 of wheels .. 16 invariants",
        ),
        (
            "@grd1 base ≤ ones",
            many(60, "\n@k# ⊤"),
            "guard @k60 .. 64 guards",
        ),
    ] {
        let to = format!("{from}{to} // here");
        refuses(4, "counter.eb", &[(from, &to)], words);
    }
}

#[test]
fn full_of_rows() {
    let witnesses = many(128, "60 2 1 5\n") + "60 2 1 5 # here";
    let edit = [("60 2 1 5   # for u: u' = v'", &*witnesses)];
    refuses(4, "L.txt", &edit, "128 witnesses");
    let actions = many(127, "51 1 1 1\n") + "51 2 2 2 # here";
    let edit = [("51 2 2 2   # v := 0", &*actions)];
    refuses(4, "L.txt", &edit, "128 actions");
    let last = "60 2 1 5   # for u: u' = v'";
    let edit = [(last, "60 2 1 5\n70 1 0 0\n70 2 0 0 # here")];
    refuses(4, "L.txt", &edit, "1 variant");
}

#[test]
fn event() {
    let cases = "
event count
convergent event count // here
event count of counter: the abstract machine has no convergent or anticipated events

event correct
event correct refines count // here
event correct of counter: an event of the abstract machine refines nothing

event turn refines count
event turn // here
event turn of wheels: an ordinary event of the refinement refines an abstract event

event turn refines count
event turn refines INITIALISATION // here
event turn of wheels: it refines an event that is no ordinary one of the abstract machine

convergent event carry
convergent event carry refines count // here
event carry of wheels: a convergent or anticipated event refines nothing

// some parts are placed
event initialisation // here\\nend
event INITIALISATION of counter: an INITIALISATION is the first event of its machine
";
    refuses_each(5, "counter.eb", cases);
}

#[test]
fn event_in_rows() {
    let cases = "
40 2 0 0   # 2: concrete initialisation
40 3 0 0 # here
event INITIALISATION .. its machine is neither 1, the abstract one, nor 2

40 2 0 0   # 2: concrete initialisation
40 2 4 0 # here
event e2 of m1: its class isn't one of 0 to 3

40 2 0 0   # 2: concrete initialisation
40 2 0 0\\n40 1 1 0 # here
event e3 of m0: an event of the abstract machine stands after one of the refinement
";
    refuses_each(5, "L.txt", cases);
}

#[test]
fn identifier() {
    let cases = "
event INITIALISATION\\n    then\\n      @act1 done
event INITIALISATION any z ∈ ℤ // here\\n    then\\n      @act1 done
abstract parameter z: an INITIALISATION has no parameters
";
    refuses_each(6, "counter.eb", cases);
    let cases = "
10    5    1    5   # 7: y
10 5 1 2 # here\\n#
concrete parameter p7: its event is of the other machine

10    5    1    5   # 7: y
10 5 1 9 # here\\n#
concrete parameter p7: its event isn't there

10    5    1    5   # 7: y
10 3 1 5 # here\\n#
concrete variable v7: only a parameter has an owning event

10    5    1    5   # 7: y
10 7 1 0 # here\\n#
its kind isn't one of 1 to 6

10    5    1    5   # 7: y
10 5 3 5 # here\\n#
concrete parameter p7: its type is neither 1, integer, nor 2, boolean
";
    refuses_each(6, "counter.txt", cases);
}

#[test]
fn reference() {
    let cases = "
@inv2 done ≤ limit
@inv2 done ≤ limit' // here
`limit'` in invariant @inv2 of counter: limit (constant) has no after value

@grd1 0 < x
@grd1 0 < x' // here
`x'` in guard @grd1 of event count: x (abstract parameter of count) has no after value

@act1 tens ≔ 0
@act1 done ≔ 0 // here
action @act1 of event INITIALISATION: it sets done (abstract variable); an event sets variables of its own machine

@act1 ones ≔ ones + y
@act1 y ≔ 0 // here
action @act1 of event turn: it sets y (concrete parameter of turn)

event INITIALISATION\\n    with
event INITIALISATION where @grd1 ⊤ // here\\n    with
guard @grd1 of event INITIALISATION: an INITIALISATION has no guards
";
    refuses_each(7, "counter.eb", cases);
}

#[test]
fn reference_of_a_witness() {
    let cases = "
@x x = y
@x x = y\\n@tens' tens' = 0 // here
witness @tens' of event turn: it is for tens (concrete variable); a witness is for a variable of the abstract machine alone

@x x = y
@base base = 0 // here
it is for base (constant); .. or for a parameter of the refined event

@grd1 base ≤ ones
@grd1 base ≤ ones with @done' done' = 0 // here
witness @done' of event carry: a witness stands at the refinement's INITIALISATION or an event that refines one

@grd2 done + x ≤ limit
@grd2 done + x ≤ limit with @done' done' = 0 // here
witness @done' of event count: a witness stands at the refinement's INITIALISATION
";
    refuses_each(7, "counter.eb", cases);
    let cases = "
@act1 free ≔ 3
@act1 free ≔ 3 end event more refines give_back with @free' free' = 1 // here\\nthen @act1 free ≔ 3
witness @free' of event more: it is for free (shared variable)

@grd1 head = 1
@grd1 head = 1 with @n n = 1 // here
witness @n of event take1: it is for n (abstract parameter of give_back)
";
    refuses_each(7, "free_list.eb", cases);
}

#[test]
fn reference_in_rows() {
    let cases = "
20 20 3 4  # 5: u' = v'
20 20 3 6 # here
an operand that isn't an earlier node

20 3 1 0   # 3: u'
20 3 9 0 # here
no identifier has number 9

20 3 1 0   # 3: u'
20 2 -1 0 # here
no identifier has number -1

20 3 1 0   # 3: u'
20 3 1 7 # here
a column that isn't 0

20 3 1 0   # 3: u'
20 7 1 0 # here
an unknown operator

51 2 2 2   # v := 0
51 2 2 9 # here
its root 9 is no node

51 2 2 2   # v := 0
51 3 2 2 # here
its event isn't there

51 2 2 2   # v := 0
51 2 7 2 # here
it sets identifier 7, which isn't there
";
    refuses_each(7, "L.txt", cases);
}

#[test]
fn sort() {
    let cases = "
@grd1 taken1 = TRUE   // not released before
@grd1 taken1 // here
guard @grd1 of event release1: `taken1` is a boolean, where a predicate is wanted

@grd1 taken1 = TRUE   // not released before
@grd1 taken1 = 1 // here
`=` in guard @grd1 of event release1: `taken1` is a boolean, `1` is an integer, where two integers or two booleans are wanted

@grd1 head = 1
@grd1 (head = 1) = (head = 2) // here
`head = 1` is a predicate, `head = 2` is a predicate, where two integers or two booleans are wanted

@grd1 head = 1
@grd1 ¬(head + 1) // here
`¬` in guard @grd1 of event take1: `head + 1` is an integer, where a predicate is wanted

@grd1 head = 1
@grd1 head = 1 ∧\\n  taken1 = bool(head) // here
`bool` in guard @grd1 of event take1: `head` is an integer, where a predicate is wanted

@grd1 head = 1
@grd1 TRUE < head // here
`TRUE` is a boolean, where an integer is wanted

@axm1 blocks = 3
@axm1 blocks // here
axiom @axm1: `blocks` is an integer, where a predicate is wanted
";
    refuses_each(8, "free_list.eb", cases);
    let words = "guard @grd1 of event count: `done` is an integer, where a predicate is wanted";
    let edit = [("@grd1 done", "@grd1 done // here")];
    refuses(8, "refused.eb", &edit, words);
}

#[test]
fn sort_of_an_action() {
    let cases = "
@act3 taken1 ≔ TRUE
@act3 taken1 ≔ 1 // here
action @act3 of event take1: `1` is an integer, where a boolean is wanted

@act3 taken1 ≔ TRUE
@act3 taken1 ≔ head = 1 // here
action @act3 of event take1: `head = 1` is a predicate, where a boolean is wanted

@act2 head ≔ link1
@act2 head ≔ TRUE // here
action @act2 of event take1: `TRUE` is a boolean, where an integer is wanted

@act2 head ≔ link1
@act2 head ≔ 1 + FALSE // here
`+` in action @act2 of event take1: `FALSE` is a boolean, where an integer is wanted

@act2 head ≔ link1
@act2 head :∣ head' + 1 // here
action @act2 of event take1: `head' + 1` is an integer, where a predicate is wanted

variant link1 + link2 + link3
variant 0 < link1 // here
the variant: `0 < link1` is a predicate, where an integer is wanted
";
    refuses_each(8, "free_list.eb", cases);
}

/// A node that is used twice by a node that is used twice, and so on: the formula isn't written out.
#[test]
fn sort_of_a_long_formula() {
    let doubled = many(20, "20 10 # #\n");
    let text = format!("# rows\n20 1 1 0\n{doubled}30 21 0 0 # here\n");
    let words = "axiom @axm1: `.. + ..` is an integer, where a predicate is wanted";
    refuses_text(8, "a.txt", &text, words);
}

#[test]
fn use_of_nodes() {
    let edits = [
        ("51 2 2 2   # v := 0", "51 2 2 1"),
        ("20 1 0 0   # 1: 0", "20 1 0 0 # here"),
    ];
    refuses(9, "L.txt", &edits, "this node is used more than once");
    let edits = [
        ("60 2 1 5   # for u: u' = v'", ""),
        ("20 20 3 4  # 5: u' = v'", "20 20 3 4 # here"),
    ];
    refuses(9, "L.txt", &edits, "`=`, node 5: no row uses this node");
}

#[test]
fn sight() {
    let cases = "
@axm2 0 ≤ limit
@axm2 0 ≤ limit + done // here
axiom @axm2: it mentions done (abstract variable); it may mention constants

@inv2 done ≤ limit
@inv2 done ≤ tens // here
it mentions tens (concrete variable); .. the abstract machine's variables

@inv2 0 ≤ tens
@inv2 0 ≤ tens' // here
invariant @inv2 of wheels: it mentions tens' (concrete variable); .. without a prime

@grd1 base ≤ ones
@grd1 base ≤ done // here
guard @grd1 of event carry: it mentions done (abstract variable); .. its machine's variables

@grd1 base ≤ ones
@grd1 y ≤ ones // here
it mentions y (concrete parameter of turn); .. the event's parameters

variant ones
variant done // here
the variant: it mentions done (abstract variable); .. the refinement's variables
";
    refuses_each(10, "counter.eb", cases);
}

#[test]
fn sight_of_actions_and_witnesses() {
    let cases = "
@act2 ones ≔ 0
@act2 ones ≔ tens // here
it mentions tens (concrete variable); .. before an INITIALISATION no variable has a value

@act2 ones ≔ 0
@act2 ones :∣ ones' = ones // here
it mentions ones (concrete variable); .. the after value that it sets

@act1 ones :∣ 0 ≤ ones'
@act1 ones :∣ 0 ≤ tens' // here\\n
action @act1 of event turn_back: it mentions tens' (concrete variable);

@x x = y
@x x = ones' // here
witness @x of event turn: it mentions ones' (concrete variable); .. without a prime

@x x = y
@x x = y + done // here
it mentions done (abstract variable); .. its own parameter

@done' done' = 0
@done' done' = done // here
witness @done' of event INITIALISATION: it mentions done (abstract variable); .. the refinement's after values and its own
";
    refuses_each(10, "counter.eb", cases);
}

#[test]
fn twice() {
    let cases = "
@act2 ones ≔ ones mod base
@act2 tens ≔ 0 // here
action @act2 of event carry: its event sets tens already

@act2 ones ≔ ones mod base
@act2 tens :∣ tens' = 0 // here
action @act2 of event carry: its event sets tens already
";
    refuses_each(11, "counter.eb", cases);
    let edits = [
        ("20 20 3 4  # 5: u' = v'", "20 20 3 4\n20 30 0 0"),
        ("60 2 1 5   # for u: u' = v'", "60 2 1 5\n60 2 1 6 # here"),
    ];
    let words = "its event has a witness for a1' already";
    refuses(11, "L.txt", &edits, words);
}

#[test]
fn missing_initialisation() {
    let initial = "event INITIALISATION\n    then\n      @act1 done ≔ 0\n  end";
    let edits = [(initial, ""), ("event count", "event count // here")];
    let words = "machine counter has no event INITIALISATION";
    refuses(12, "counter.eb", &edits, words);
    let text = text_of("counter.eb");
    let (machine, refinement) = text.split_once("machine wheels").expect("a refinement");
    refuses_text(12, "counter.eb", machine, "there is no refinement");
    let (_, events) = refinement
        .split_once("event turn refines count")
        .expect("turn");
    let (variables, _) = refinement.split_once("event INITIALISATION").expect("one");
    let text =
        format!("{machine}machine wheels{variables}event turn refines count // here{events}");
    let words = "machine wheels has no event INITIALISATION";
    refuses_text(12, "counter.eb", &text, words);
    let words = "machine m0 has no event INITIALISATION";
    refuses_text(12, "empty.txt", "", words);
}

#[test]
fn missing_initial_action() {
    let edits = [
        ("      @act2 ones ≔ 0\n", ""),
        (
            "event INITIALISATION\n    with",
            "event INITIALISATION // here\n    with",
        ),
    ];
    let words = "the INITIALISATION of wheels has no action for ones";
    refuses(12, "counter.eb", &edits, words);
    let cases = "
event INITIALISATION\\n    then\\n      @act1 free ≔ 3
event INITIALISATION // here\\n    then
the INITIALISATION of list has no action for free

event INITIALISATION\\n    then\\n      @act1 free ≔ blocks
event INITIALISATION // here
the INITIALISATION of blocks_free has no action for free
";
    refuses_each(12, "free_list.eb", cases);
}

#[test]
fn missing_witness() {
    let turn = (
        "event turn refines count",
        "event turn refines count // here",
    );
    let witnesses = "    with\n      @done' done' = base ∗ tens' + ones'\n      @x x = y\n";
    let words = "event turn of wheels has no witness @done'";
    refuses(
        12,
        "counter.eb",
        &[(witnesses, "with @x x = y\n"), turn],
        words,
    );
    refuses(12, "counter.eb", &[(witnesses, ""), turn], words);
    let words = "event turn of wheels has no witness @x";
    refuses(12, "counter.eb", &[("      @x x = y\n", ""), turn], words);
    let cases = "
event INITIALISATION\\n    with\\n      @done' done' = 0
event INITIALISATION // here
event INITIALISATION of wheels has no witness @done'
";
    refuses_each(12, "counter.eb", cases);
}

#[test]
fn missing_variant() {
    let edits = [
        ("variant ones", ""),
        ("convergent event carry", "convergent event carry // here"),
    ];
    let words = "event carry is convergent, and wheels has no variant";
    refuses(12, "counter.eb", &edits, words);
    let text = text_of("counter.eb").replace("variant ones", "variant ones // here");
    let (text, _) = text.split_once("convergent event").expect("an event");
    let words = "there is a variant, and no convergent or anticipated event";
    refuses_text(12, "counter.eb", &format!("{text}end\n"), words);
}

#[test]
fn sequent() {
    for k in ["0", "34", "18446744073709551615"] {
        let ran = run(&["show", "models/counter.eb", k]);
        let place = "models/counter.eb: refusal 13 (sequent), row 0: ";
        let said =
            format!("{place}no sequent has this number; the model has 33\n    look for: a number");
        assert!(ran.message.starts_with(&said), "{}", ran.message);
        assert_eq!((ran.output.as_str(), ran.status), ("", Some(1)));
    }
}

/// The program says the same: `check` on standard output, other commands on standard error.
#[test]
fn the_program_reports() {
    let text = edited(&text_of("counter.eb"), "variant ones", "variant done");
    let path = file("reported.eb", &text);
    let path = path.to_str().expect("UTF-8");
    let source = Source::of(path, text.as_bytes()).expect("no mistake");
    let report = report(&source, check(&source.bytes).expect_err("a refusal"));
    let checked = run(&["check", path]);
    assert_eq!((checked.output, checked.status), (report.clone(), Some(1)));
    let listed = run(&["list", path]);
    assert_eq!((listed.message, listed.status), (report, Some(1)));
}

/// Whatever a table is refused for, something is said of it that isn't of any refusal.
#[test]
fn generated_tables() {
    let mut numbers = BTreeSet::new();
    for seed in 0..4000 {
        let bytes = compare::generate::table(seed);
        let source = Source::of("a.table", &bytes).expect("a table has no mistakes");
        let Err(refusal) = check(&source.bytes) else {
            continue;
        };
        numbers.insert(refusal.number);
        let said = report(&source, refusal);
        for nothing in [
            "something isn't there",
            "it is refused",
            ": , where",
            "mentions ;",
        ] {
            assert!(!said.contains(nothing), "seed {seed}: {said}");
        }
    }
    assert_eq!(numbers, (1..=12).collect());
}
