//! Shared variables (kind 6): what refuses them, their sequents, form 10, and what these rule out.

use crate::common::{changed, refusal, rows, table, RICH};
use compare::checks::accept;
use compare::refute::counterexample;
use compare::rows::{bytes_of, Row};
use compare::sequents::sequents;
use compare::services::{check, print, Answers};

/// Shared variables before, between and after those of one machine. Node n is row n + 7.
const MIXED: &str = "
    10 6 1 0 # 1 shared variable s
    10 3 1 0 # 2 concrete variable v
    10 2 1 0 # 3 abstract variable u
    10 1 1 0 # 4 constant c
    10 6 2 0 # 5 shared variable t, boolean
    10 4 1 2 # 6 parameter n of event 2
    10 3 1 0 # 7 concrete variable r
    20 1 0 0; 20 2 4 0; 20 21 1 2                       # 3: 0 < c
    20 1 0 0; 20 2 1 0; 20 22 4 5                       # 6: 0 <= s
    20 2 3 0; 20 2 1 0; 20 10 7 8; 20 2 2 0; 20 2 1 0; 20 10 10 11; 20 20 9 12 # 13: u + s = v + s
    20 2 7 0; 20 2 1 0; 20 10 14 15                     # 16: r + s
    20 1 0 0; 20 1 0 0                                  # 17: 0, 18: 0
    20 3 5 0; 20 4 0 0; 20 20 19 20                     # 21: t' = TRUE
    20 1 0 0; 20 2 6 0; 20 21 22 23                     # 24: 0 < n
    20 2 1 0; 20 2 6 0; 20 10 25 26                     # 27: s + n
    20 3 5 0; 20 2 5 0; 20 20 28 29                     # 30: t' = t
    20 1 0 0; 20 1 0 0; 20 4 0 0; 20 2 4 0              # 31: 0, 32: 0, 33: TRUE, 34: c
    20 3 3 0; 20 3 2 0; 20 3 1 0; 20 10 36 37; 20 20 35 38 # 39: u' = v' + s'
    20 2 1 0; 20 2 4 0; 20 21 40 41                     # 42: s < c
    20 3 1 0; 20 2 1 0; 20 1 1 0; 20 10 44 45; 20 20 43 46 # 47: s' = s + 1
    20 2 6 0; 20 2 1 0; 20 10 48 49; 20 2 1 0; 20 1 1 0; 20 10 51 52; 20 20 50 53 # 54: n + s = s + 1
    20 3 3 0; 20 2 1 0; 20 10 55 56; 20 3 2 0; 20 2 1 0; 20 10 58 59; 20 20 57 60 # 61: u' + s = v' + s
    20 1 0 0; 20 2 7 0; 20 21 62 63                     # 64: 0 < r
    20 2 7 0; 20 1 1 0; 20 11 65 66; 20 2 5 0           # 67: r - 1, 68: t
    20 3 1 0; 20 2 1 0; 20 20 69 70                     # 71: s' = s
    30 3 0 0; 31 6 0 0; 32 13 0 0                       # rows 79 to 81
    40 1 0 0; 40 1 1 0; 40 2 0 0; 40 2 1 2; 40 2 2 0; 40 2 3 0 # rows 82 to 87
    50 2 24 0; 50 4 42 0; 50 5 64 0                     # rows 88 to 90
    51 1 1 17; 51 1 3 18; 51 2 1 27                     # rows 91 to 93
    51 3 1 31; 51 3 2 32; 51 3 5 33; 51 3 7 34          # rows 94 to 97
    51 5 7 67; 51 5 5 68                                # rows 98 and 99
    52 1 5 21; 52 2 5 30; 52 4 1 47; 52 6 1 71          # rows 100 to 103
    60 3 3 39; 60 4 6 54; 60 4 3 61                     # rows 104 to 106
    70 16 0 0                                           # row 107
";

/// B stands for the base of events 4 to 6, A for that of event 2; C, D, E for these with the guards of 4, 5 and 2;
/// M, N, P, Q for the moves of 3 to 6. Event 5 sets nothing that the invariant mentions.
const WANTED: &str = "
    80 3 1 5; 84 1 5 5; 81 1 3 0; 82 5 1 5
    80 2 1 6; 84 1 1 1; 81 1 3 0; 81 4 1 1; 81 4 1 3; 81 4 1 5; 82 2 6 0

    80 3 2 5; 84 1 5 5; E; 82 5 2 5
    80 2 2 6; 84 1 1 1; E; 81 4 2 1; 81 4 2 3; 81 4 2 5; 82 2 6 0

    80 6 3 3; 84 3 1 3; 81 1 3 0; M; 82 6 3 3
    80 5 3 1; 84 1 1 1; 81 1 3 0; M; 81 1 39 0; 82 4 1 1
    80 5 3 3; 84 1 3 3; 81 1 3 0; M; 81 1 39 0; 82 4 1 3
    80 5 3 5; 84 1 5 5; 81 1 3 0; M; 81 1 39 0; 82 4 1 5
    80 2 3 13; 84 3 1 3; 81 1 3 0; M; 81 1 39 0; 82 2 13 0

    80 3 4 1; 84 1 1 1; C; 82 5 4 1
    80 6 4 6; 84 2 1 6; C; 82 6 4 6
    80 6 4 3; 84 3 1 3; C; N; 82 6 4 3
    80 4 4 24; 84 1 6 6; C; 81 1 54 0; 82 1 24 0
    80 5 4 1; 84 2 1 6; C; N; 81 1 54 0; 81 1 61 0; 82 4 2 1
    80 5 4 3; 84 1 3 3; C; N; 81 1 54 0; 81 1 61 0; 82 4 2 3
    80 5 4 5; 84 1 5 5; C; N; 81 1 54 0; 81 1 61 0; 82 4 2 5
    80 2 4 13; 84 3 1 3; C; N; 81 1 54 0; 81 1 61 0; 82 2 13 0

    80 5 5 1; 84 1 1 1; D; P; 82 10 1 0
    80 5 5 5; 84 1 5 5; D; P; 82 10 5 0
    80 7 5 16; 84 2 1 7; D; 82 7 16 0
    80 8 5 16; 84 2 1 7; D; P; 82 8 16 0

    80 3 6 1; 84 1 1 1; B; 82 5 6 1
    80 5 6 1; 84 1 1 1; B; Q; 82 10 1 0
    80 5 6 5; 84 1 5 5; B; Q; 82 10 5 0
    80 2 6 13; 84 3 1 3; B; Q; 81 4 6 3; 82 2 13 0
    80 8 6 16; 84 2 1 7; B; Q; 82 9 16 0
";

/// Form 4 of the event for the concrete machine's variables.
fn moves(event: i32) -> String {
    let of = |variable| format!("81 4 {event} {variable}");
    [1, 2, 5, 7].map(of).join("; ")
}

fn wanted() -> Vec<Row> {
    let text = WANTED
        .replace('C', "B; 81 1 42 0")
        .replace('D', "B; 81 1 64 0")
        .replace('E', "A; 81 1 24 0")
        .replace('B', "A; 81 1 13 0")
        .replace('A', "81 1 3 0; 81 1 6 0")
        .replace('M', &moves(3))
        .replace('N', &moves(4))
        .replace('P', &moves(5))
        .replace('Q', &moves(6));
    rows(&text)
}

#[test]
fn mixed_table_prints() {
    assert_eq!(print(&table(MIXED)), bytes_of(&wanted()));
    assert_eq!(check(&table(MIXED)), Ok(26));
}

/// One variable, set by both initialisations: SIM is all that the second one adds.
#[test]
fn a_shared_variable_alone() {
    let text = "10 6 1 0; 20 1 0 0; 20 1 0 0; 40 1 0 0; 40 2 0 0; 51 1 1 1; 51 2 1 2";
    let wanted = "80 5 2 1; 84 1 1 1; 81 4 2 1; 82 4 1 1";
    assert_eq!(print(&table(text)), table(wanted));
    // At an anticipated event it has SIM with and without a variant, and nothing else.
    let new = text.replace("51 1 1 1", "40 2 3 0; 51 1 1 1");
    let sim = format!("{wanted}; 80 5 3 1; 84 1 1 1; 81 4 3 1; 82 10 1 0");
    assert_eq!(print(&table(&new)), table(&sim));
}

/// Kind 2 beside kind 6: one order by number for WD and SIM, and INV of a new event ends with kind 2 alone.
/// Nodes 3, 6 and 9 divide; the invariant is other = other (12), the witness ⊤ (13), the variant 0 (14).
#[test]
fn numbers_decide_the_order() {
    let printed = |kinds: [i32; 2], one: i32, other: i32| {
        let [first, second] = kinds;
        print(&table(&format!(
            "10 {first} 1 0; 10 {second} 1 0; 20 1 1 0; 20 1 1 0; 20 13 1 2; 20 1 1 0; 20 1 1 0; 20 14 4 5;
            20 1 1 0; 20 1 1 0; 20 13 7 8; 20 2 {other} 0; 20 2 {other} 0; 20 20 10 11; 20 30 0 0; 20 1 0 0; 20 1 0 0;
            32 12 0 0; 40 1 0 0; 40 2 0 0; 40 2 2 0; 51 1 1 3; 51 1 2 6; 51 2 {other} 9; 51 3 {other} 15;
            60 2 {one} 13; 70 14 0 0"
        )))
    };
    let list = |one: i32, other: i32| {
        format!(
            "80 1 1 3; 84 0 0 0; 82 3 3 0; 80 1 1 6; 84 0 0 0; 82 3 6 0; 80 1 2 9; 84 0 0 0; 82 3 9 0;
            80 6 2 {one}; 84 1 {one} {one}; 81 4 2 {other}; 82 6 2 {one};
            80 5 2 1; 84 1 1 1; 81 4 2 {other}; 81 1 13 0; 82 4 1 1;
            80 5 2 2; 84 1 2 2; 81 4 2 {other}; 81 1 13 0; 82 4 1 2;
            80 2 2 12; 84 1 {other} {other}; 81 4 2 {other}; 81 1 13 0; 82 2 12 0;
            80 5 3 {other}; 84 1 {other} {other}; 81 1 12 0; 81 4 3 {other}; 82 10 {other} 0;
            80 2 3 12; 84 1 {other} {other}; 81 1 12 0; 81 4 3 {other}; 81 4 3 {one}; 82 2 12 0;
            80 7 3 14; 84 0 0 0; 81 1 12 0; 82 7 14 0; 80 8 3 14; 84 0 0 0; 81 1 12 0; 81 4 3 {other}; 82 8 14 0"
        )
    };
    assert_eq!(printed([2, 6], 1, 2), table(&list(1, 2)));
    assert_eq!(printed([6, 2], 2, 1), table(&list(2, 1)));
}

#[test]
fn forms_are_spelled() {
    let answers = Answers::of(&table(MIXED));
    // s' = s and t' = t, goals of SIM at event 5, whether it assigns the variable or not.
    assert_eq!(
        answers.entry(18, 9),
        Ok(rows("83 20 0 0; 83 3 1 0; 83 2 1 0"))
    );
    assert_eq!(
        answers.entry(19, 9),
        Ok(rows("83 20 0 0; 83 3 5 0; 83 2 5 0"))
    );
    assert_eq!(answers.entry(19, 10), Err(refusal(14, 0)));
    // Form 2: u' + s' = v' + s'.
    let after = "83 20 0 0; 83 10 0 0; 83 3 3 0; 83 3 1 0; 83 10 0 0; 83 3 2 0; 83 3 1 0";
    assert_eq!(answers.entry(25, 9), Ok(rows(after)));
    // Forms 8 and 9: r' + s' < r + s, then with ≤.
    let variant = "83 10 0 0; 83 3 7 0; 83 3 1 0; 83 10 0 0; 83 2 7 0; 83 2 1 0";
    let form_8 = rows(&format!("83 21 0 0; {variant}"));
    let form_9 = rows(&format!("83 22 0 0; {variant}"));
    assert_eq!(answers.entry(21, 9), Ok(form_8));
    assert_eq!(answers.entry(26, 8), Ok(form_9));
    // Form 4 of the concrete event as hypothesis, of the abstract one as goal.
    let concrete = "83 20 0 0; 83 3 1 0; 83 10 0 0; 83 2 1 0; 83 1 1 0";
    assert_eq!(answers.entry(14, 5), Ok(rows(concrete)));
    let abstract_one = "83 20 0 0; 83 3 1 0; 83 10 0 0; 83 2 1 0; 83 2 6 0";
    assert_eq!(answers.entry(14, 11), Ok(rows(abstract_one)));
}

/// Refusal 6: an owner of any sort, and kinds on either side.
#[test]
fn identifier() {
    for owner in [1, 2, 4, 6, 7, -1, i32::MAX] {
        let bytes = changed(MIXED, 1, [10, 6, 1, owner]);
        assert_eq!(check(&bytes), Err(refusal(6, 1)), "{owner}");
    }
    for numbers in [[10, 7, 1, 0], [10, 0, 1, 0], [10, 6, 0, 0], [10, 6, 3, 0]] {
        let bytes = changed(MIXED, 1, numbers);
        assert_eq!(check(&bytes), Err(refusal(6, 1)), "{numbers:?}");
    }
    // A variable of one machine that becomes shared needs an initial action more, and no witness.
    assert_eq!(check(&changed(RICH, 2, [10, 6, 1, 0])), Err(refusal(12, 0)));
    assert_eq!(check(&changed(RICH, 3, [10, 6, 2, 0])), Err(refusal(7, 72)));
}

/// Refusal 7: no witness at any event; operator 3 takes it.
#[test]
fn reference() {
    for (event, variable) in [
        (3, 1),
        (3, 5),
        (4, 1),
        (4, 5),
        (5, 1),
        (6, 1),
        (1, 1),
        (2, 1),
    ] {
        let bytes = changed(MIXED, 106, [60, event, variable, 61]);
        assert_eq!(check(&bytes), Err(refusal(7, 106)), "{event} {variable}");
    }
    // An action on it fits any event of either machine: the second for its target is then 11, else t has none.
    assert_eq!(check(&changed(MIXED, 98, [51, 6, 7, 67])), Ok(26));
    assert_eq!(
        check(&changed(MIXED, 99, [51, 2, 5, 68])),
        Err(refusal(11, 101))
    );
    assert_eq!(
        check(&changed(MIXED, 96, [51, 4, 5, 33])),
        Err(refusal(12, 0))
    );
}

/// The table with leaf node n in place of its own, refused at the row of its root.
fn sight_at(row: usize, node: usize, operator: i32, identifier: i32) {
    let bytes = changed(MIXED, node + 7, [20, operator, identifier, 0]);
    let what = format!("node {node}: {operator} {identifier}");
    assert_eq!(check(&bytes), Err(refusal(10, row)), "{what}");
}

fn sight_fits(node: usize, operator: i32, identifier: i32) {
    let bytes = changed(MIXED, node + 7, [20, operator, identifier, 0]);
    let what = format!("node {node}: {operator} {identifier}");
    assert_eq!(check(&bytes), Ok(26), "{what}");
}

/// Refusal 10: no value in axioms, no after value in invariants, variant, guards, 51 and parameter witnesses.
#[test]
fn sight() {
    sight_at(79, 2, 2, 1);
    sight_at(79, 2, 3, 1);
    for (row, node) in [
        (80, 5),
        (81, 8),
        (107, 15),
        (88, 23),
        (89, 40),
        (93, 25),
        (98, 65),
        (105, 49),
    ] {
        sight_at(row, node, 3, 1);
        sight_fits(node, 2, 1);
    }
    // The boolean one: in a 51, and in the 52 that sets it.
    sight_at(99, 68, 3, 5);
    sight_fits(29, 3, 5);
    // In a variable witness both values.
    for node in [56, 58] {
        sight_fits(node, 2, 1);
        sight_fits(node, 3, 1);
    }
    // In the 52 that sets it its own after value, no other's.
    sight_fits(44, 3, 1);
    sight_at(102, 44, 3, 2);
    let two = "10 6 1 0; 10 6 1 0; 20 1 0 0; 20 1 0 0; 20 1 0 0; 20 3 1 0; 20 3 2 0; 20 20 4 5;
        40 1 0 0; 40 2 0 0; 51 1 1 1; 51 1 2 2; 51 2 1 3; 52 2 2 6";
    assert_eq!(check(&table(two)), Err(refusal(10, 14)));
    let own = two.replace("20 3 1 0", "20 3 2 0");
    assert!(check(&table(&own)).is_ok());
}

/// Refusal 10: no present value at an initialisation of either machine, its witnesses included.
#[test]
fn sight_of_initialisations() {
    for (row, node) in [(91, 17), (92, 18), (94, 31), (95, 32), (97, 34), (104, 37)] {
        sight_at(row, node, 2, 1);
    }
    sight_at(96, 33, 2, 5);
    sight_at(100, 20, 2, 5);
    sight_fits(20, 3, 5);
    sight_fits(36, 3, 1);
}

/// Refusal 11: a second action for it at one event; at events of both machines it is none.
#[test]
fn twice() {
    assert_eq!(
        check(&changed(MIXED, 95, [51, 3, 1, 32])),
        Err(refusal(11, 95))
    );
    assert_eq!(
        check(&changed(MIXED, 103, [52, 4, 1, 71])),
        Err(refusal(11, 103))
    );
    assert_eq!(
        check(&changed(MIXED, 102, [52, 2, 1, 47])),
        Err(refusal(11, 102))
    );
}

/// Refusal 12: either initial action, or both.
#[test]
fn missing() {
    let tables = [
        "10 6 1 0; 20 1 0 0; 40 1 0 0; 40 2 0 0; 51 1 1 1",
        "10 6 1 0; 20 1 0 0; 40 1 0 0; 40 2 0 0; 51 2 1 1",
        "10 6 1 0; 40 1 0 0; 40 2 0 0",
        // An action at another event is none.
        "10 6 1 0; 20 1 0 0; 20 1 0 0; 40 1 0 0; 40 1 1 0; 40 2 0 0; 51 2 1 1; 51 3 1 2",
        "10 6 1 0; 20 1 0 0; 20 1 0 0; 40 1 0 0; 40 2 0 0; 40 2 3 0; 51 1 1 1; 51 3 1 2",
    ];
    for text in tables {
        assert_eq!(check(&table(text)), Err(refusal(12, 0)), "{text}");
    }
}

/// The rows 80 of the sequents that small values refute.
fn refuted(bytes: &[u8]) -> Vec<[i32; 3]> {
    let table = accept(bytes).expect("accepted");
    let list = sequents(&table).into_iter();
    list.filter(|sequent| counterexample(&table, sequent, -3..=4).is_some())
        .map(|sequent| [sequent.kind, sequent.event, sequent.item])
        .collect()
}

/// Each way to let the machines differ in a shared variable is found by one SIM, and by nothing else.
#[test]
fn a_difference_of_the_machines_is_refuted() {
    assert_eq!(refuted(&table(MIXED)), [[0; 3]; 0]);
    // The concrete initialisation sets s to 1, the abstract one to 0: u' = v' + s' then breaks u' = 0 too.
    let bytes = changed(MIXED, 38, [20, 1, 1, 0]);
    assert_eq!(refuted(&bytes), [[5, 3, 1], [5, 3, 3], [2, 3, 13]]);
    // The same with t: FALSE and TRUE.
    assert_eq!(refuted(&changed(MIXED, 40, [20, 5, 0, 0])), [[5, 3, 5]]);
    // Event 4 goes up by 2 where its parameter says 1.
    assert_eq!(refuted(&changed(MIXED, 52, [20, 1, 2, 0])), [[5, 4, 1]]);
    // The convergent event sets t, the anticipated one lowers s without breaking the variant.
    assert_eq!(refuted(&changed(MIXED, 75, [20, 5, 0, 0])), [[5, 5, 5]]);
    let lowered = changed(MIXED, 78, [20, 21, 69, 70]);
    assert_eq!(refuted(&lowered), [[5, 6, 1]]);
}
