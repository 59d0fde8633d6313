//! Anticipated events (class 3): what refuses them, their sequents, form 9, and the runs that these allow.

use crate::common::{changed, refusal, rows, table, RICH};
use compare::checks::accept;
use compare::evaluate::{evaluate, Reading, Value, Values};
use compare::formula::spell;
use compare::refute::counterexample;
use compare::rows::{bytes_of, Row};
use compare::sequents::sequents;
use compare::services::{check, print, Answers};
use compare::table::Table;

/// Anticipated events 3 and 5 beside a convergent one, 4. Node n is row n + 6.
const MIXED: &str = "
    10 1 1 0 # 1 constant c
    10 2 1 0 # 2 abstract variable u
    10 3 1 0 # 3 concrete variable v
    10 2 2 0 # 4 abstract variable w, boolean
    10 3 1 0 # 5 concrete variable r
    10 5 1 5 # 6 parameter p of event 5
    20 1 0 0; 20 2 1 0; 20 21 1 2                       # 3: 0 < c
    20 2 2 0; 20 2 1 0; 20 22 4 5                       # 6: u <= c
    20 2 2 0; 20 2 3 0; 20 2 5 0; 20 10 8 9; 20 20 7 10 # 11: u = v + r
    20 1 0 0; 20 2 6 0; 20 21 12 13                     # 14: 0 < p
    20 2 6 0; 20 2 5 0; 20 2 1 0; 20 13 16 17; 20 22 15 18 # 19: p <= r / c
    20 2 3 0; 20 2 6 0; 20 10 20 21                     # 22: v + p
    20 3 5 0; 20 2 5 0; 20 22 23 24                     # 25: r' <= r
    20 2 5 0; 20 2 1 0; 20 10 26 27                     # 28: r + c
    20 1 0 0; 20 5 0 0; 20 1 0 0; 20 1 0 0              # 29: 0, 30: FALSE, 31: 0, 32: 0
    20 3 2 0; 20 3 3 0; 20 20 33 34                     # 35: u' = v'
    20 30 0 0; 20 30 0 0; 20 1 0 0                      # 36: true, 37: true, 38: 0
    30 3 0 0; 31 6 0 0; 32 11 0 0                       # rows 45 to 47
    40 1 0 0; 40 2 0 0; 40 2 3 0; 40 2 2 0; 40 2 3 0    # rows 48 to 52
    50 5 14 0; 50 4 37 0; 50 5 19 0                     # rows 53 to 55
    51 1 2 29; 51 1 4 30; 51 2 3 31; 51 2 5 32          # rows 56 to 59
    51 5 3 22; 51 4 5 38                                # rows 60 and 61
    52 5 5 25                                           # row 62
    60 2 2 35; 60 2 4 36                                # rows 63 and 64
    70 28 0 0                                           # row 65
";

/// B stands for the base of events 3 to 5, G for that with the guards of event 5, M for the initialisation's moves.
const WANTED: &str = "
    80 2 1 6; 84 2 1 2; 81 1 3 0; 81 4 1 2; 81 4 1 4; 82 2 6 0

    80 6 2 2; 84 2 2 3; 81 1 3 0; M; 82 6 2 2
    80 6 2 4; 84 1 4 4; 81 1 3 0; M; 82 6 2 4
    80 5 2 2; 84 1 2 2; 81 1 3 0; M; 81 1 35 0; 81 1 36 0; 82 4 1 2
    80 5 2 4; 84 1 4 4; 81 1 3 0; M; 81 1 35 0; 81 1 36 0; 82 4 1 4
    80 2 2 11; 84 3 2 5; 81 1 3 0; M; 81 1 35 0; 81 1 36 0; 82 2 11 0

    80 8 3 28; 84 2 1 5; B; 81 4 3 3; 81 4 3 5; 82 9 28 0

    80 2 4 11; 84 3 2 5; B; 81 1 37 0; 81 4 4 3; 81 4 4 5; 81 4 4 2; 81 4 4 4; 82 2 11 0
    80 7 4 28; 84 2 1 5; B; 81 1 37 0; 82 7 28 0
    80 8 4 28; 84 2 1 5; B; 81 1 37 0; 81 4 4 3; 81 4 4 5; 82 8 28 0

    80 1 5 19; 84 1 1 1; B; 81 1 14 0; 82 3 19 0
    80 3 5 5; 84 1 5 5; G; 82 5 5 5
    80 2 5 11; 84 3 2 5; G; 81 4 5 3; 81 4 5 5; 81 4 5 2; 81 4 5 4; 82 2 11 0
    80 8 5 28; 84 2 1 5; G; 81 4 5 3; 81 4 5 5; 82 9 28 0
";

fn wanted() -> Vec<Row> {
    let text = WANTED
        .replace('G', "B; 81 1 14 0; 81 1 19 0")
        .replace('M', "81 4 2 3; 81 4 2 5")
        .replace('B', "81 1 3 0; 81 1 6 0; 81 1 11 0");
    rows(&text)
}

#[test]
fn mixed_table_prints() {
    assert_eq!(print(&table(MIXED)), bytes_of(&wanted()));
    assert_eq!(check(&table(MIXED)), Ok(14));
}

/// The convergent event becomes anticipated: its NAT goes, and its VAR has form 9.
#[test]
fn anticipated_events_alone_keep_the_variant() {
    let mut rows = wanted();
    let nat = rows.iter().position(|row| row.tag == 80 && row.a == 7);
    let nat = nat.expect("the convergent event's");
    rows.drain(nat..nat + 7);
    let lowers = rows.iter_mut().find(|row| row.tag == 82 && row.a == 8);
    lowers.expect("the convergent event's").a = 9;
    assert_eq!(print(&changed(MIXED, 51, [40, 2, 3, 0])), bytes_of(&rows));
}

/// The smallest machine with a variant, and the same without it.
#[test]
fn var_is_made_only_with_a_variant() {
    let with = "10 3 1 0; 20 1 0 0; 20 2 1 0; 40 1 0 0; 40 2 0 0; 40 2 3 0; 51 2 1 1; 70 2 0 0";
    let wanted = "80 8 3 2; 84 1 1 1; 81 4 3 1; 82 9 2 0";
    assert_eq!(print(&table(with)), table(wanted));
    let without = "10 3 1 0; 20 1 0 0; 40 1 0 0; 40 2 0 0; 40 2 3 0; 51 2 1 1";
    assert_eq!(print(&table(without)), b"");
}

/// WD of a variant that divides is made with its row, also with an anticipated event alone.
#[test]
fn wd_of_the_variant_needs_no_convergent_event() {
    let text = "10 3 1 0; 20 1 0 0; 20 1 7 0; 20 2 1 0; 20 13 2 3;
        40 1 0 0; 40 2 0 0; 40 2 3 0; 51 2 1 1; 70 4 0 0";
    let wanted = "80 1 0 4; 84 1 1 1; 82 3 4 0; 80 8 3 4; 84 1 1 1; 81 4 3 1; 82 9 4 0";
    assert_eq!(print(&table(text)), table(wanted));
}

/// Without a variant all but VAR is made: WD, FIS and INV under the abstract variable's "after equals before".
/// The invariant is v = v ÷ v (node 8), the guard 1 mod v < 0 (13), the action v' ≤ v ÷ v (18), the witness ⊤ (3).
#[test]
fn other_sequents_need_no_variant() {
    let text = "10 2 1 0; 10 3 1 0; 20 1 0 0; 20 1 0 0; 20 30 0 0;
        20 2 2 0; 20 2 2 0; 20 2 2 0; 20 13 5 6; 20 20 4 7;
        20 1 1 0; 20 2 2 0; 20 14 9 10; 20 1 0 0; 20 21 11 12;
        20 3 2 0; 20 2 2 0; 20 2 2 0; 20 13 15 16; 20 22 14 17;
        32 8 0 0; 40 1 0 0; 40 2 0 0; 40 2 3 0; 50 3 13 0; 51 1 1 1; 51 2 2 2; 52 3 2 18; 60 2 1 3";
    let wanted = "80 1 0 8; 84 1 2 2; 82 3 8 0;
        80 6 2 1; 84 1 1 1; 81 4 2 2; 82 6 2 1; 80 5 2 1; 84 1 1 1; 81 4 2 2; 81 1 3 0; 82 4 1 1;
        80 2 2 8; 84 1 2 2; 81 4 2 2; 81 1 3 0; 82 2 8 0;
        80 1 3 13; 84 1 2 2; 81 1 8 0; 82 3 13 0; 80 1 3 18; 84 1 2 2; 81 1 8 0; 81 1 13 0; 82 3 18 0;
        80 3 3 2; 84 1 2 2; 81 1 8 0; 81 1 13 0; 82 5 3 2;
        80 2 3 8; 84 1 2 2; 81 1 8 0; 81 1 13 0; 81 4 3 2; 81 4 3 1; 82 2 8 0";
    assert_eq!(print(&table(text)), table(wanted));
}

/// r' + c ≤ r + c, as the goal of the last sequent: the constant stays as it is.
#[test]
fn form_9_is_spelled() {
    let answers = Answers::of(&table(MIXED));
    let goal = "83 22 0 0; 83 10 0 0; 83 3 5 0; 83 2 1 0; 83 10 0 0; 83 2 5 0; 83 2 1 0";
    assert_eq!(answers.entry(14, 8), Ok(rows(goal)));
    assert_eq!(answers.entry(14, 9), Err(refusal(14, 0)));
    // The abstract variables of its INV keep their values.
    assert_eq!(
        answers.entry(13, 8),
        Ok(rows("83 20 0 0; 83 3 2 0; 83 2 2 0"))
    );
    assert_eq!(
        answers.entry(13, 9),
        Ok(rows("83 20 0 0; 83 3 4 0; 83 2 4 0"))
    );
}

/// Refusal 5: abstract, with a refined event of any sort, or a class above 3.
#[test]
fn event() {
    for row in [48, 49] {
        assert_eq!(
            check(&changed(MIXED, row, [40, 1, 3, 0])),
            Err(refusal(5, row))
        );
    }
    for refined in [1, 2, 3, 6, -1, i32::MAX] {
        let bytes = changed(MIXED, 52, [40, 2, 3, refined]);
        assert_eq!(check(&bytes), Err(refusal(5, 52)), "{refined}");
    }
    for class in [4, 5, -3, i32::MAX] {
        let bytes = changed(MIXED, 52, [40, 2, class, 0]);
        assert_eq!(check(&bytes), Err(refusal(5, 52)), "{class}");
    }
    // An abstract ordinary event would fit an ordinary one.
    assert_eq!(
        check(&changed(RICH, 62, [40, 2, 3, 2])),
        Err(refusal(5, 62))
    );
    assert_eq!(
        check(&changed(RICH, 59, [40, 1, 3, 0])),
        Err(refusal(5, 59))
    );
    assert_eq!(check(&changed(RICH, 62, [40, 2, 3, 0])), Ok(19));
}

/// Refusal 6: it owns concrete parameters only.
#[test]
fn owner() {
    assert_eq!(check(&changed(MIXED, 6, [10, 4, 1, 5])), Err(refusal(6, 6)));
    // Another anticipated event may own it; the first guard that mentions it is then at fault.
    assert_eq!(
        check(&changed(MIXED, 6, [10, 5, 1, 3])),
        Err(refusal(10, 53))
    );
}

/// Refusal 7: no witness, and no action on an abstract variable; a guard stands at any anticipated event.
#[test]
fn reference() {
    for event in [3, 5] {
        let bytes = changed(MIXED, 63, [60, event, 2, 35]);
        assert_eq!(check(&bytes), Err(refusal(7, 63)), "{event}");
    }
    assert_eq!(
        check(&changed(MIXED, 60, [51, 5, 2, 22])),
        Err(refusal(7, 60))
    );
    // The guard p ≤ r ÷ c sees p at event 5 alone, the guard ⊤ fits both.
    assert_eq!(
        check(&changed(MIXED, 55, [50, 3, 19, 0])),
        Err(refusal(10, 55))
    );
    assert_eq!(check(&changed(MIXED, 54, [50, 3, 37, 0])), Ok(14));
}

/// Refusals 10 and 11 hold as for other concrete events.
#[test]
fn sight_and_twice() {
    for unseen in [[20, 2, 2, 0], [20, 3, 5, 0]] {
        let bytes = changed(MIXED, 22, unseen);
        assert_eq!(check(&bytes), Err(refusal(10, 55)), "{unseen:?}");
    }
    assert_eq!(
        check(&changed(MIXED, 61, [51, 5, 3, 38])),
        Err(refusal(11, 61))
    );
}

#[test]
fn missing() {
    let tables = [
        // A convergent event without a variant, before and after an anticipated one.
        "40 1 0 0; 40 2 0 0; 40 2 2 0; 40 2 3 0",
        "40 1 0 0; 40 2 0 0; 40 2 3 0; 40 2 2 0",
        // A variant with ordinary events alone.
        "20 1 0 0; 40 1 0 0; 40 1 1 0; 40 2 0 0; 40 2 1 2; 70 1 0 0",
        // An anticipated event is no initialisation, and leaves a machine's other wants as they are.
        "40 1 0 0; 40 2 3 0",
        "10 3 1 0; 20 1 0 0; 40 1 0 0; 40 2 0 0; 40 2 3 0; 51 3 1 1",
    ];
    for text in tables {
        assert_eq!(check(&table(text)), Err(refusal(12, 0)), "{text}");
    }
}

/// No variant is asked for, and one may stand; no witness is asked for.
#[test]
fn nothing_is_missing() {
    let accepted = [
        ("40 1 0 0; 40 2 0 0; 40 2 3 0", 0),
        ("20 1 0 0; 40 1 0 0; 40 2 0 0; 40 2 3 0; 70 1 0 0", 1),
        (
            "20 1 0 0; 40 1 0 0; 40 2 0 0; 40 2 3 0; 40 2 2 0; 70 1 0 0",
            3,
        ),
        (
            "20 1 0 0; 40 1 0 0; 40 2 0 0; 40 2 2 0; 40 2 3 0; 70 1 0 0",
            3,
        ),
    ];
    for (text, count) in accepted {
        assert_eq!(check(&table(text)), Ok(count), "{text}");
    }
}

/// Event 3 converges, v := v − 1 where 0 ≤ v; event 4 is anticipated, v := v − 2; the variant is v.
const LOWERING: &str = "10 3 1 0; 20 1 9 0; 20 1 0 0; 20 2 1 0; 20 22 2 3;
    20 2 1 0; 20 1 1 0; 20 11 5 6; 20 2 1 0; 20 1 2 0; 20 11 8 9; 20 2 1 0;
    40 1 0 0; 40 2 0 0; 40 2 2 0; 40 2 3 0; 50 3 4 0; 51 2 1 1; 51 3 1 7; 51 4 1 10; 70 11 0 0";

/// The value of v after a step of the event, if its guards let it.
fn step(table: &Table, event: i32, v: i128) -> Option<i128> {
    let values = Values {
        now: vec![Value::Integer(v)],
        after: vec![Value::Integer(v)],
    };
    let value = |root: i32| {
        let mut spelled = Vec::new();
        spell(table, root, &mut spelled);
        evaluate(&spelled, table, &values, Reading::Run).expect("defined")
    };
    let mut guards = table.guards(event);
    if !guards.all(|guard| value(guard.root) == Value::Truth(true)) {
        return None;
    }
    match value(table.action(event, 1)?.root) {
        Value::Integer(after) => Some(after),
        Value::Truth(_) => None,
    }
}

/// The most convergent steps of a stretch of at most so many steps from this value.
fn most_convergent(table: &Table, v: i128, steps: usize) -> i128 {
    if steps == 0 {
        return 0;
    }
    let after = |event, counted| {
        step(table, event, v).map(|v| counted + most_convergent(table, v, steps - 1))
    };
    after(3, 1).max(after(4, 0)).unwrap_or(0)
}

/// The rows 80 of the sequents that small values refute.
fn refuted(rows: &[Row]) -> Vec<[i32; 3]> {
    let table = accept(&bytes_of(rows)).expect("accepted");
    let list = sequents(&table).into_iter();
    list.filter(|sequent| counterexample(&table, sequent, -9..=9).is_some())
        .map(|sequent| [sequent.kind, sequent.event, sequent.item])
        .collect()
}

/// In a stretch that holds a convergent step these number at most the variant's first value plus one.
#[test]
fn convergent_steps_of_a_stretch_are_bounded() {
    let rows = rows(LOWERING);
    assert_eq!(refuted(&rows), [[0; 3]; 0]);
    let table = Table::new(rows);
    for v in 0..=5 {
        assert_eq!(most_convergent(&table, v, 9), v + 1);
    }
    // From below 0 there is none, so that the bound would be false of anticipated steps alone.
    assert_eq!(most_convergent(&table, -2, 9), 0);
    assert_eq!(step(&table, 4, -2), Some(-4));
}

/// An anticipated event that raises the variant is refuted by its VAR alone, and breaks the bound.
#[test]
fn a_raised_variant_is_refuted() {
    let mut rows = rows(LOWERING);
    // v − 2 becomes v + 2: node n is row n + 1.
    rows[10] = Row::new(20, 10, 8, 9);
    assert_eq!(refuted(&rows), [[8, 4, 11]]);
    assert!(most_convergent(&Table::new(rows), 0, 9) > 1);
}
