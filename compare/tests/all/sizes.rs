//! The sizes that the paper wants run, and the largest answers found.

use crate::common::definedness::rule;
use crate::common::{refusal, table};
use compare::formula::{Sort, MOD};
use compare::generate::plan::{extreme, EXTREMES};
use compare::generate::random::Random;
use compare::operators::SHAPES;
use compare::plain::may_lack_inv;
use compare::rows::{bytes_of, Row};
use compare::sequents::{sequents, spell_out, whole_list, Sequent, INV};
use compare::services::{check, print, spell_entry};
use compare::table::Table;
use std::collections::BTreeMap;

/// So many constants, and both initialisations.
fn identifiers(count: usize) -> Vec<u8> {
    let mut rows = vec![Row::new(10, 1, 1, 0); count];
    rows.push(Row::new(40, 1, 0, 0));
    rows.push(Row::new(40, 2, 0, 0));
    bytes_of(&rows)
}

#[test]
fn sixty_four_identifiers_are_most() {
    assert_eq!(check(&identifiers(64)), Ok(0));
    assert_eq!(check(&identifiers(65)), Err(refusal(4, 65)));
}

/// One axiom of so many nodes: truth under negations.
fn nodes(count: usize) -> Vec<u8> {
    let mut rows = vec![Row::new(20, 30, 0, 0)];
    rows.extend((1..count as i32).map(|number| Row::new(20, 32, number, 0)));
    rows.push(Row::new(30, count as i32, 0, 0));
    rows.push(Row::new(40, 1, 0, 0));
    rows.push(Row::new(40, 2, 0, 0));
    bytes_of(&rows)
}

#[test]
fn five_hundred_and_twelve_nodes_are_most() {
    // None divides, so that no WD is made.
    assert_eq!(check(&nodes(512)), Ok(0));
    assert_eq!(check(&nodes(513)), Err(refusal(4, 513)));
}

#[test]
fn bytes_of_a_table() {
    let rows = |count: usize| bytes_of(&vec![Row::new(20, 30, 0, 0); count]);
    assert_eq!(rows(1724).len(), 65_512);
    assert_eq!(check(&rows(1724)), Err(refusal(4, 513)));
    assert_eq!(rows(1725).len(), 65_550);
    assert_eq!(check(&rows(1725)), Err(refusal(1, 0)));
}

/// 512 nodes, each using the one before twice.
#[test]
fn shared_nodes_are_answered_at_once() {
    for (leaf, operator, tag) in [((1, 1), 10, 70), ((30, 0), 33, 30)] {
        let mut rows = vec![Row::new(20, leaf.0, leaf.1, 0)];
        rows.extend((1..512).map(|number| Row::new(20, operator, number, number)));
        rows.push(Row::new(tag, 512, 0, 0));
        rows.push(Row::new(40, 1, 0, 0));
        rows.push(Row::new(40, 2, 0, 0));
        rows.push(Row::new(40, 2, 2, 0));
        rows.sort_by_key(|row| row.tag);
        assert_eq!(check(&bytes_of(&rows)), Err(refusal(9, 1)));
        assert_eq!(print(&bytes_of(&rows)), table("89 9 1 0"));
    }
}

fn extreme_table(number: usize) -> Vec<u8> {
    let mut random = Random::new(1);
    let draft = extreme(number, &mut random);
    bytes_of(&draft.rows(&mut random))
}

#[test]
fn extremes_are_accepted() {
    for number in 0..EXTREMES {
        assert!(check(&extreme_table(number)).is_ok(), "{number}");
    }
}

#[test]
fn every_limit_at_once() {
    // Without anticipated events and shared variables, with the first, and with both.
    for number in [0, 8, 10] {
        let bytes = extreme_table(number);
        assert_eq!(bytes.len() / 38, 64 + 512 + 48 + 32 + 64 + 128 + 128 + 1);
        assert!(check(&bytes).is_ok(), "{number}");
    }
}

/// 360 formulas leave 152 nodes, four more for each that divides: 38 WD. 128 FIS, 120 WFIS, 29 × 64 GRD, 120 SIM, 512 INV.
#[test]
fn most_sequents() {
    let count = 38 + 128 + 120 + 29 * 64 + 120 + 32 * 16;
    assert_eq!(count, 2774);
    assert_eq!(check(&extreme_table(1)), Ok(count));
}

/// The same with 60 shared variables for concrete ones: 30 × 64 SIM.
#[test]
fn most_sequents_with_shared_variables() {
    let count = 38 + 128 + 120 + 29 * 64 + 30 * 64 + 32 * 16;
    assert_eq!(count, 4574);
    assert_eq!(check(&extreme_table(11)), Ok(count));
}

/// What is timed and grows to its limits has sequents of every kind, WD and INV that are left out elsewhere among them.
#[test]
fn timed_tables_have_every_kind() {
    for name in ["512 nodes, 32 events", "table, a quarter", "table, whole"] {
        let bytes = compare::bench::table(name).expect("a timed table");
        let read = compare::checks::accept(&bytes).expect("accepted");
        let list = sequents(&read);
        for kind in 1..=8 {
            assert!(list.iter().any(|one| one.kind == kind), "{name} {kind}");
        }
        let may_lack = |one: &&Sequent| one.kind == INV && may_lack_inv(&read, one.event);
        assert!(list.iter().filter(may_lack).count() > 0, "{name}");
        assert!(list.len() < whole_list(&read).len(), "{name}");
    }
}

#[test]
fn longest_sequent() {
    // At an ordinary event, at an anticipated one, and with 64 shared variables.
    for number in [2, 9, 12] {
        let read = compare::checks::accept(&extreme_table(number)).expect("accepted");
        let list = sequents(&read);
        let longest = list.iter().map(|one| one.rows()).max();
        assert_eq!(longest, Some(179), "{number}");
    }
}

/// The rows of the longest well-definedness that a formula of at most so many nodes has, with these operators alone.
fn longest_definedness(most: usize, allowed: impl Fn(i32) -> bool) -> usize {
    // By sort and number of nodes; for each split of these between two operands the longest of both is the best.
    let mut best: BTreeMap<(Sort, usize), usize> = BTreeMap::new();
    for nodes in 1..=most {
        for shape in SHAPES.iter().filter(|shape| allowed(shape.operator)) {
            let of = |side: usize, nodes: usize| best.get(&(shape.takes[side], nodes)).copied();
            let rows = match shape.takes.len() {
                0 if nodes == 1 => Some(definedness_rows(shape.operator, [0; 2], [0; 2])),
                1 if nodes > 1 => of(0, nodes - 1)
                    .map(|below| definedness_rows(shape.operator, [nodes - 1, 0], [below, 0])),
                2 => (1..nodes.saturating_sub(1))
                    .filter_map(|left| {
                        let sizes = [left, nodes - 1 - left];
                        let below = [of(0, sizes[0])?, of(1, sizes[1])?];
                        Some(definedness_rows(shape.operator, sizes, below))
                    })
                    .max(),
                _ => None,
            };
            let longest = best.get(&(shape.makes, nodes)).copied();
            if let Some(rows) = rows.max(longest) {
                best.insert((shape.makes, nodes), rows);
            }
        }
    }
    best.into_values().max().expect("some formula")
}

/// The rows of an operator's well-definedness over operands of these sizes, with these rows of theirs.
fn definedness_rows(operator: i32, sizes: [usize; 2], below: [usize; 2]) -> usize {
    let rows = |word: &str| match word {
        "a" => sizes[0],
        "b" => sizes[1],
        "wa" => below[0],
        "wb" => below[1],
        _ => 1,
    };
    rule(operator).split(' ').map(rows).sum()
}

/// The goal of the first sequent of an extreme table with 512 nodes has so many rows, and fits a buffer of as many.
fn assert_longest(number: usize, rows: usize) {
    let bytes = extreme_table(number);
    let read: Table = compare::checks::accept(&bytes).expect("accepted");
    assert_eq!(read.nodes.len(), 512);
    let goal = sequents(&read)[0].goal;
    assert_eq!(spell_out(&read, goal).len(), rows);
    let mut out = vec![0; rows * 38];
    assert_eq!(spell_entry(&bytes, 1, 1, &mut out), Ok(rows));
    out.pop();
    assert_eq!(spell_entry(&bytes, 1, 1, &mut out), Err(refusal(15, 0)));
}

/// No formula of 512 nodes has a longer well-definedness, and no other form has more than twice as many rows as nodes.
#[test]
fn longest_entry() {
    assert_eq!(longest_definedness(512, |_| true), 67_576);
    assert_longest(3, 67_576);
    // A formula of 255 levels: 7 rows each, the operands as written, and ⊤ of the leaf and of what is deepest.
    let levels = (1..=255).map(|level| 7 + (2 * level + 1) + 1);
    assert_eq!(levels.sum::<usize>() + 1, 67_576);
}

#[test]
fn longest_entry_without_mod() {
    assert_eq!(longest_definedness(512, |one| one != MOD), 66_811);
    assert_longest(13, 66_811);
}
