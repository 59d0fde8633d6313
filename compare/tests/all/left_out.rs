//! Request 4 on explicit tables: which WD and INV are left out, row 84, and that what is left out is valid.

use crate::common::{self, changed, refusal, rows, table, INVARIANTS, PLACES, RICH};
use compare::checks::accept;
use compare::formula::{spell, Symbol, DIVIDE, IDENTIFIER, MOD};
use compare::generate;
use compare::mentioned::{counted, Mentioned};
use compare::plain;
use compare::rows::{bytes_of, Row, ROW_BYTES};
use compare::sequents::{list, sequents, whole_list, Sequent, INV, WD};
use compare::services::{check, print, spell_entry, write_sequent, Answers};
use compare::table::*;
use compare::validity::{search, Searched, Under};

/// The rows 80 of the list.
fn heads(bytes: &[u8]) -> Vec<[i32; 3]> {
    let rows = rows_of_print(bytes).into_iter();
    let heads = rows.filter(|row| row.tag == 80);
    heads.map(|row| [row.a, row.b, row.c]).collect()
}

fn rows_of_print(bytes: &[u8]) -> Vec<Row> {
    compare::shrink::rows_of(&print(bytes)).expect("rows")
}

/// The rows 84 of the list.
fn counts(bytes: &[u8]) -> Vec<[i32; 3]> {
    let rows = rows_of_print(bytes).into_iter();
    let found = rows.filter(|row| row.tag == 84);
    found.map(|row| [row.a, row.b, row.c]).collect()
}

/// The list of PLACES with WD of every formula. Event 5 assigns nothing, so that it has no INV.
const WITH_EVERY_WD: [[i32; 3]; 27] = [
    [1, 0, 5],
    [1, 0, 10],
    [1, 0, 15],
    [1, 0, 59],
    [1, 1, 28],
    [2, 1, 10],
    [1, 2, 20],
    [1, 2, 33],
    [3, 2, 2],
    [2, 2, 10],
    [1, 3, 36],
    [1, 3, 46],
    [6, 3, 2],
    [5, 3, 2],
    [2, 3, 15],
    [1, 4, 25],
    [1, 4, 41],
    [3, 4, 3],
    [1, 4, 51],
    [6, 4, 2],
    [1, 4, 56],
    [6, 4, 4],
    [4, 4, 20],
    [5, 4, 2],
    [2, 4, 15],
    [7, 5, 59],
    [8, 5, 59],
];

/// The rows 80 of PLACES with WD of these roots alone.
fn with_wd_of(roots: &[i32]) -> Vec<[i32; 3]> {
    let made = |head: &[i32; 3]| head[0] != 1 || roots.contains(&head[2]);
    WITH_EVERY_WD.into_iter().filter(made).collect()
}

/// Each product of PLACES and the root above it.
const PRODUCTS: [(i32, i32); 13] = [
    (3, 5),
    (8, 10),
    (13, 15),
    (18, 20),
    (23, 25),
    (28, 28),
    (31, 33),
    (36, 36),
    (39, 41),
    (44, 46),
    (49, 51),
    (54, 56),
    (59, 59),
];

/// PLACES with this operator for the products of these nodes.
fn with_operator(nodes: &[i32], operator: i32) -> Vec<u8> {
    let mut all = rows(PLACES);
    for &node in nodes {
        all[node as usize + 3].a = operator;
    }
    bytes_of(&all)
}

/// No WD without ÷ and mod; with one in any sort of row, that formula's WD in its place, and nothing else.
#[test]
fn wd_is_made_where_the_formula_divides() {
    for operator in [10, 11, 12] {
        let nodes = PRODUCTS.map(|one| one.0);
        assert_eq!(heads(&with_operator(&nodes, operator)), with_wd_of(&[]));
    }
    for (node, root) in PRODUCTS {
        for operator in [13, 14] {
            let bytes = with_operator(&[node], operator);
            assert_eq!(heads(&bytes), with_wd_of(&[root]), "{node} {operator}");
        }
    }
    let nodes = PRODUCTS.map(|one| one.0);
    let roots = PRODUCTS.map(|one| one.1);
    for operator in [13, 14] {
        assert_eq!(heads(&with_operator(&nodes, operator)), with_wd_of(&roots));
    }
}

/// The hypotheses stay whole: those of a formula whose own WD is left out too.
#[test]
fn hypotheses_stay() {
    let text =
        "80 1 4 51; 84 1 1 1; 81 1 5 0; 81 1 10 0; 81 1 15 0; 81 1 25 0; 81 4 4 3; 82 3 51 0";
    let bytes = with_operator(&[49], 13);
    let k = 1 + heads(&bytes)
        .iter()
        .position(|head| head[0] == 1)
        .expect("one WD");
    assert_eq!(Answers::of(&bytes).sequent(k), Ok(rows(text)));
}

/// A formula as the axiom of a table with constants 1 (an integer) and 2 (a boolean): the count, and row 84 of its WD.
fn axiom(nodes: &str) -> (usize, Option<[i32; 3]>) {
    let root = rows(nodes).len();
    let bytes = table(&format!(
        "10 1 1 0; 10 1 2 0; {nodes}; 30 {root} 0 0; 40 1 0 0; 40 2 0 0"
    ));
    let count = check(&bytes).expect("accepted");
    (count, counts(&bytes).first().copied())
}

/// By its own nodes: under bool, under ¬, in a side never read, and with a divisor that is never 0.
#[test]
fn wd_is_made_wherever_the_division_stands() {
    let quotient = "20 1 6 0; 20 2 1 0; 20 13 1 2; 20 1 0 0; 20 20 3 4";
    let only_1 = (1, Some([1, 1, 1]));
    assert_eq!(axiom(quotient), only_1);
    assert_eq!(axiom(&quotient.replace("20 13", "20 14")), only_1);
    // bool(6 ÷ 1 = 0) = TRUE, and = 2, which WD doesn't mention.
    assert_eq!(
        axiom(&format!("{quotient}; 20 6 5 0; 20 4 0 0; 20 20 6 7")),
        only_1
    );
    assert_eq!(
        axiom(&format!("{quotient}; 20 6 5 0; 20 2 2 0; 20 20 6 7")),
        only_1
    );
    assert_eq!(axiom(&format!("{quotient}; 20 32 5 0")), only_1);
    // ⊥ ∧, ⊥ ⇒ and ⊤ ∨ before it.
    for (left, operator) in [(31, 33), (31, 35), (30, 34)] {
        let never = format!("{quotient}; 20 {left} 0 0; 20 {operator} 6 5");
        assert_eq!(axiom(&never), only_1);
    }
    // 1 ÷ 2 with literals; the constant on the left of ÷ 3, which WD doesn't mention, and of mod 3, which it does.
    let literal = "20 1 1 0; 20 1 2 0; 20 13 1 2; 20 1 0 0; 20 20 3 4";
    assert_eq!(axiom(literal), (1, Some([0, 0, 0])));
    let left = "20 2 1 0; 20 1 3 0; 20 13 1 2; 20 1 0 0; 20 20 3 4";
    assert_eq!(axiom(left), (1, Some([0, 0, 0])));
    assert_eq!(axiom(&left.replace("20 13", "20 14")), only_1);
    // No division: a product, a comparison of booleans, ⊥ ∧ ⊤.
    assert_eq!(axiom(&quotient.replace("20 13", "20 12")), (0, None));
    assert_eq!(axiom("20 2 2 0; 20 4 0 0; 20 20 1 2"), (0, None));
    assert_eq!(axiom("20 31 0 0; 20 30 0 0; 20 33 1 2"), (0, None));
}

/// Row 84 counts the left side of ∧, ∨ and ⇒, which WD repeats, and no side of ⇔.
#[test]
fn row_84_of_wd_counts_the_spelled_formula() {
    // P is 2 = TRUE, Q is 6 ÷ 1 = 0.
    let sides = "20 2 2 0; 20 4 0 0; 20 20 1 2; 20 1 6 0; 20 2 1 0; 20 13 4 5; 20 1 0 0; 20 20 6 7";
    for operator in [33, 34, 35] {
        let p_first = axiom(&format!("{sides}; 20 {operator} 3 8"));
        assert_eq!(p_first, (1, Some([2, 1, 2])), "{operator}");
        let q_first = axiom(&format!("{sides}; 20 {operator} 8 3"));
        assert_eq!(q_first, (1, Some([1, 1, 1])), "{operator}");
    }
    assert_eq!(axiom(&format!("{sides}; 20 36 3 8")), (1, Some([1, 1, 1])));
    // The divisor as written: 6 ÷ (1 ÷ 1).
    let nested = "20 1 6 0; 20 2 1 0; 20 2 1 0; 20 13 2 3; 20 13 1 4; 20 1 0 0; 20 20 5 6";
    assert_eq!(axiom(nested), (1, Some([1, 1, 1])));
}

/// The events and invariants of the INV of a table.
fn invs(bytes: &[u8]) -> Vec<(i32, i32)> {
    let found = heads(bytes).into_iter().filter(|head| head[0] == 2);
    found.map(|head| (head[1], head[2])).collect()
}

/// For each event of INVARIANTS the invariants that it has INV of.
const KEPT: [(i32, &[i32]); 10] = [
    (1, &[3, 6, 9, 12]),
    (2, &[]),
    (3, &[6]),
    (4, &[12]),
    (5, &[15, 18, 21, 24, 27, 30]),
    (6, &[15, 18, 21, 24, 27, 30]),
    (7, &[]),
    (8, &[18, 30]),
    (9, &[24]),
    (10, &[21, 30]),
];

fn kept(list: &[(i32, &[i32])]) -> Vec<(i32, i32)> {
    let of_event = |&(event, roots): &(i32, &[i32])| {
        let of = move |&root: &i32| (event, root);
        roots.iter().map(of).collect::<Vec<_>>()
    };
    list.iter().flat_map(of_event).collect()
}

/// Left out at abstract, convergent and anticipated events that set no variable of the invariant. Event 3 is a := a; event 6
/// refines and sets nothing; an abstract variable alone in a concrete invariant is never set by a new event.
#[test]
fn inv_is_left_out_where_nothing_of_it_is_set() {
    assert_eq!(invs(&table(INVARIANTS)), kept(&KEPT));
    // Convergent and anticipated are alike: event 8 becomes anticipated, event 9 convergent.
    let mut all = rows(INVARIANTS);
    let events: Vec<usize> = (0..all.len()).filter(|&n| all[n].tag == 40).collect();
    all[events[7]].b = 3;
    all[events[8]].b = 2;
    assert_eq!(invs(&bytes_of(&all)), kept(&KEPT));
}

/// Row 51 and row 52 are both assignments, and a row for another variable isn't one.
#[test]
fn inv_follows_the_rows() {
    let place = |row: Row| rows(INVARIANTS).iter().position(|&one| one == row);
    let at = |row: Row| 1 + place(row).expect("a row of the table");
    let mut wanted = KEPT;
    // Event 10 sets x by 52 instead of y.
    wanted[9].1 = &[18, 30];
    let bytes = changed(INVARIANTS, at(Row::new(52, 10, 6, 45)), [52, 10, 5, 45]);
    assert_eq!(invs(&bytes), kept(&wanted));
    // Event 2 sets b by 52 instead of event 4 the shared variable.
    wanted = KEPT;
    (wanted[1].1, wanted[3].1) = (&[9], &[]);
    let bytes = changed(INVARIANTS, at(Row::new(52, 4, 4, 35)), [52, 2, 3, 35]);
    assert_eq!(invs(&bytes), kept(&wanted));
}

/// L's P2 and P3 for a longer list: numbers follow the shorter list, and row 84 takes room but is no entry.
#[test]
fn numbers_and_room_follow_the_shorter_list() {
    let bytes = table(RICH);
    assert_eq!(check(&bytes), Ok(20));
    let mut out = vec![7; 10 * ROW_BYTES];
    assert_eq!(write_sequent(&bytes, 21, &mut out), Err(refusal(13, 0)));
    assert_eq!(write_sequent(&bytes, 1, &mut out[..4 * ROW_BYTES]), Ok(4));
    assert_eq!(
        write_sequent(&bytes, 1, &mut out[..4 * ROW_BYTES - 1]),
        Err(refusal(15, 0))
    );
    // Sequent 1 has a hypothesis and a goal.
    assert_eq!(spell_entry(&bytes, 1, 2, &mut out), Ok(10));
    assert_eq!(spell_entry(&bytes, 1, 3, &mut out), Err(refusal(14, 0)));
    assert_eq!(Answers::of(&bytes).entries(1), Ok(2));
    assert_eq!(Answers::of(&bytes).entries(21), Err(refusal(13, 0)));
}

/// 64 concrete variables that become anything at the initialisation, and these concrete invariants over them.
fn sixty_four(invariants: &[&str]) -> Vec<u8> {
    let mut all = vec![Row::new(10, 3, 1, 0); 64];
    all.extend(vec![Row::new(20, 30, 0, 0); 64]);
    all.extend((1..=64).map(|number| Row::new(52, 2, number, number)));
    all.extend([Row::new(40, 1, 0, 0), Row::new(40, 2, 0, 0)]);
    for text in invariants {
        let first = all.iter().filter(|row| row.tag == 20).count() as i32;
        let mut nodes = rows(text);
        for node in nodes.iter_mut().filter(|node| node.a >= 10) {
            (node.b, node.c) = (node.b + first, node.c + first);
        }
        all.push(Row::new(32, first + nodes.len() as i32, 0, 0));
        all.extend(nodes);
    }
    all.sort_by_key(|row| row.tag);
    bytes_of(&all)
}

/// The lowest and the highest number that an identifier can have, alone and together, and all 64.
#[test]
fn row_84_reaches_both_ends() {
    let mut sum = "20 2 1 0".to_string();
    for number in 2..=64 {
        let last = 2 * number - 3;
        sum += &format!("; 20 2 {number} 0; 20 10 {last} {}", last + 1);
    }
    let bytes = sixty_four(&[
        "20 2 1 0; 20 2 64 0; 20 20 1 2",
        "20 2 64 0; 20 2 64 0; 20 20 1 2",
        "20 2 1 0; 20 1 5 0; 20 20 1 2",
        "20 1 5 0; 20 1 5 0; 20 20 1 2",
        "20 2 33 0; 20 2 32 0; 20 20 1 2",
        &format!("{sum}; 20 1 0 0; 20 20 127 128"),
    ]);
    let found = counts(&bytes);
    // FIS of each variable, whose predicate ⊤ mentions nothing: the bound one alone.
    let bound: Vec<[i32; 3]> = (1..=64).map(|number| [1, number, number]).collect();
    assert_eq!(found[..64], bound);
    let of_inv = [
        [2, 1, 64],
        [1, 64, 64],
        [1, 1, 1],
        [0, 0, 0],
        [2, 32, 33],
        [64, 1, 64],
    ];
    assert_eq!(found[64..], of_inv);
}

/// Row 84 of each form: present and after value of one identifier are one, a bound one counts.
#[test]
fn row_84_of_each_form() {
    let mentioned = |text: &str, form, first, second| {
        let read = accept(&table(text)).expect("accepted");
        let goal = compare::sequents::Entry {
            form,
            first,
            second,
        };
        let quick = counted(Mentioned::of(&read).in_entry(goal));
        assert_eq!(
            quick,
            plain::counted(&read, goal),
            "{form} {first} {second}"
        );
        quick
    };
    let rich = |form, first, second| mentioned(RICH, form, first, second);
    assert_eq!(rich(1, 18, 0), [2, 4, 6]);
    assert_eq!(rich(2, 15, 0), [3, 2, 6]);
    assert_eq!(rich(3, 9, 0), [1, 1, 1]);
    assert_eq!(rich(3, 15, 0), [0, 0, 0]);
    // u' = FALSE, w' = x, v' = v + y, u' = u.
    assert_eq!(rich(4, 1, 3), [1, 3, 3]);
    assert_eq!(rich(4, 2, 6), [2, 4, 6]);
    assert_eq!(rich(4, 4, 2), [2, 2, 5]);
    assert_eq!(rich(4, 2, 3), [1, 3, 3]);
    assert_eq!(rich(5, 5, 2), [1, 2, 2]);
    assert_eq!(rich(6, 4, 4), [2, 4, 5]);
    assert_eq!(rich(6, 4, 3), [1, 3, 3]);
    assert_eq!(rich(7, 48, 0), [1, 2, 2]);
    assert_eq!(rich(8, 48, 0), [1, 2, 2]);
    assert_eq!(rich(9, 48, 0), [1, 2, 2]);
    let invariants = |form, first, second| mentioned(INVARIANTS, form, first, second);
    assert_eq!(invariants(10, 4, 0), [1, 4, 4]);
    // A 52 whose predicate ⊤ doesn't mention its variable: form 4 has none, form 5 the bound one.
    assert_eq!(invariants(4, 4, 4), [0, 0, 0]);
    assert_eq!(invariants(5, 4, 4), [1, 4, 4]);
}

/// The list and row 84 from sets made once and from spelled rows, one sequent at a time.
#[test]
fn the_quick_way_and_the_plain_way_agree() {
    for seed in 0..1500 {
        let bytes = generate::table(seed);
        let Ok(read) = accept(&bytes) else {
            continue;
        };
        let mentioned = Mentioned::of(&read);
        let quick = list(&read, &mentioned);
        assert_eq!(quick, plain::sequents(&read), "seed {seed}");
        for sequent in &quick {
            let sets = counted(mentioned.in_entry(sequent.goal));
            let spelled = plain::counted(&read, sequent.goal);
            assert_eq!(sets, spelled, "seed {seed}: {sequent:?}");
        }
    }
}

/// Both ways of answering give the same rows and refusals.
#[test]
fn answers_agree() {
    for text in [common::L, RICH, PLACES, INVARIANTS, "40 1 0 0"] {
        let bytes = table(text);
        let (quick, plain) = (Answers::of(&bytes), Answers::plain(&bytes));
        assert_eq!(quick.check(), plain.check());
        for k in 0..=1 + quick.check().unwrap_or(0) {
            assert_eq!(quick.sequent(k), plain.sequent(k));
            assert_eq!(quick.entry(k, 1), plain.entry(k, 1));
        }
    }
}

/// The shorter list is the whole one without those left out, in the same order.
#[test]
fn the_whole_list_has_every_wd_and_inv() {
    let read = accept(&table(PLACES)).expect("accepted");
    let whole: Vec<[i32; 3]> = whole_list(&read)
        .iter()
        .map(|one| [one.kind, one.event, one.item])
        .collect();
    let mut wanted = with_wd_of(&PRODUCTS.map(|one| one.1));
    let nat = wanted.iter().position(|head| head[0] == 7).expect("NAT");
    wanted.insert(nat, [2, 5, 15]);
    assert_eq!(whole, wanted);
    let left_out: Vec<Sequent> = whole_list(&read)
        .into_iter()
        .filter(|one| plain::is_left_out(&read, one))
        .collect();
    assert_eq!(left_out.len() + sequents(&read).len(), whole.len());
    assert!(left_out.iter().all(|one| one.kind == WD || one.kind == INV));
}

/// No small values refute what is left out of the lists of generated tables, nor the same under the needed hypotheses alone.
#[test]
fn what_is_left_out_is_valid() {
    for under in [Under::All, Under::Needed] {
        let searched = search(0, 1500, under, plain::is_left_out);
        assert_eq!(searched.refuted, None);
        let enough = searched.wd > 10_000 && searched.inv > 5000;
        assert!(enough, "{}", searched.report());
    }
}

/// What another rule leaves out, under all hypotheses.
fn searched(is_left_out: impl Fn(&Table, &Sequent) -> bool) -> Searched {
    search(0, 10_000, Under::All, is_left_out)
}

/// Whether this is INV of such an event.
fn is_inv_of(table: &Table, sequent: &Sequent, machine: i32, class: i32) -> bool {
    let event = table.event(sequent.event);
    let here = event.is_some_and(|one| one.machine == machine && one.class == class);
    sequent.kind == INV && here
}

/// The formula of an item that is a root, as written.
fn spelled(table: &Table, root: i32) -> Vec<Symbol> {
    let mut symbols = Vec::new();
    spell(table, root, &mut symbols);
    symbols
}

/// The search would find what may not be left out: INV of concrete events with witnesses, though they set nothing of it.
#[test]
fn leaving_out_inv_of_refining_events_is_refuted() {
    for class in [INITIALISATION, ORDINARY] {
        let searched = searched(|table, one| {
            let set = |symbol: &Symbol| {
                symbol.operator == IDENTIFIER && table.action(one.event, symbol.b).is_some()
            };
            is_inv_of(table, one, CONCRETE, class) && !spelled(table, one.item).iter().any(set)
        });
        assert!(searched.refuted.is_some(), "{class}");
    }
}

/// And all INV of the other events, those too that set something of it.
#[test]
fn leaving_out_every_inv_is_refuted() {
    for (machine, class) in [
        (ABSTRACT, ORDINARY),
        (CONCRETE, CONVERGENT),
        (CONCRETE, ANTICIPATED),
    ] {
        let searched = searched(|table, one| is_inv_of(table, one, machine, class));
        assert!(searched.refuted.is_some(), "{machine} {class}");
    }
}

/// And WD of formulas with ÷ alone, and with mod alone.
#[test]
fn leaving_out_wd_of_divisions_is_refuted() {
    for (operator, other) in [(DIVIDE, MOD), (MOD, DIVIDE)] {
        let searched = searched(|table, one| {
            one.kind == WD && {
                let symbols = spelled(table, one.item);
                let has = |wanted: i32| symbols.iter().any(|one| one.operator == wanted);
                has(operator) && !has(other)
            }
        });
        assert!(searched.refuted.is_some(), "{operator}");
    }
}
