//! A mistake in what request 4 leaves out, or in row 84, shows on explicit tables and on generated ones.

use crate::common::rules::{Count, Rule, Rules, RIGHT};
use crate::common::{table, INVARIANTS, L, PLACES, RICH};
use compare::against::{Comparison, Effort};
use compare::campaign::compare;
use compare::checks::accept;
use compare::formula::*;
use compare::generate::random::Random;
use compare::plain::{self, is_left_out, may_lack_inv};
use compare::rows::ROW_BYTES;
use compare::sequents::{spell_out, Entry, Sequent, INV, WD};
use compare::table::*;

/// An axiom that divides under bool, and one that divides where nothing is read.
const HIDDEN: &str =
    "10 1 1 0; 20 1 6 0; 20 2 1 0; 20 13 1 2; 20 1 0 0; 20 20 3 4; 20 6 5 0; 20 4 0 0; 20 20 6 7;
    20 1 6 0; 20 2 1 0; 20 14 9 10; 20 1 0 0; 20 20 11 12; 20 31 0 0; 20 33 14 13;
    30 8 0 0; 30 15 0 0; 40 1 0 0; 40 2 0 0";

/// The tables on which each mistake must show.
fn explicit() -> Vec<Vec<u8>> {
    let mut all: Vec<Vec<u8>> = [L, RICH, PLACES, INVARIANTS, HIDDEN].map(table).into();
    all.push(table(&PLACES.replace("20 12", "20 13")));
    all.push(table(&PLACES.replace("20 12", "20 14")));
    let constants = "10 1 1 0; ".repeat(64);
    // 1 ÷ 64 = 0: WD mentions identifier 64.
    let text = "20 2 1 0; 20 2 64 0; 20 13 1 2; 20 1 0 0; 20 20 3 4; 30 5 0 0; 40 1 0 0; 40 2 0 0";
    all.push(table(&format!("{constants}{text}")));
    all
}

/// Asks that the comparison notices these rules on an explicit table, and on generated ones.
fn assert_noticed(rules: Rules, what: &str) {
    let noticed = explicit().iter().any(|table| {
        let comparison = Comparison::new(&rules, table).run(Effort::Every, &mut Random::new(0));
        comparison.difference.is_some()
    });
    assert!(noticed, "{what}: not on an explicit table");
    let first = (0..40).map(|n| 1000 * n);
    let found = first
        .map(|first| compare_few(&rules, first))
        .any(|found| found);
    assert!(found, "{what}: not on a generated table");
}

/// Whether the tables of a few seeds show a difference, without making one smaller.
fn compare_few(rules: &Rules, first: u64) -> bool {
    (first..first + 200).any(|seed| {
        let table = compare::generate::table(seed);
        let small = table.len() < 120 * ROW_BYTES;
        small && {
            let comparison = Comparison::new(rules, &table).run(Effort::Every, &mut Random::new(0));
            comparison.difference.is_some()
        }
    })
}

#[test]
fn the_right_rules_are_no_difference() {
    for table in explicit() {
        assert!(accept(&table).is_ok());
        let comparison = Comparison::new(&RIGHT, &table).run(Effort::Every, &mut Random::new(0));
        assert!(comparison.difference.is_none());
    }
    let (summary, found) = compare(&RIGHT, 0, 300, 1, false).expect("no panic");
    assert!(found.is_none() && summary.accepted > 100);
}

/// The operators of a formula, those under bool or in sides never read only if asked for.
fn operators(table: &Table, root: i32, under_bool: bool, unread: bool) -> Vec<i32> {
    let node = table.nodes[root as usize - 1];
    let left = table.node(node.b).map_or(0, |left| left.operator);
    let never = matches!((node.operator, left), (33 | 35, 31) | (34, 30));
    let mut found = vec![node.operator];
    for (side, operand) in operands(node).into_iter().enumerate() {
        let skipped = (node.operator == BOOL && !under_bool) || (never && side == 1 && !unread);
        if !skipped {
            found.extend(operators(table, operand, under_bool, unread));
        }
    }
    found
}

fn divides_by(found: &[i32], wanted: &[i32]) -> bool {
    found.iter().any(|one| wanted.contains(one))
}

/// Leaves out WD where none of the wanted operators is found, and INV as it should.
fn wd_by(table: &Table, one: &Sequent, under_bool: bool, unread: bool, wanted: &[i32]) -> bool {
    match one.kind {
        WD => !divides_by(&operators(table, one.item, under_bool, unread), wanted),
        _ => is_left_out(table, one),
    }
}

/// Mistakes in what WD is left out.
const WD_RULES: [(&str, Rule); 8] = [
    ("every WD is made", |table, one| {
        one.kind != WD && is_left_out(table, one)
    }),
    ("no WD is made", |table, one| {
        one.kind == WD || is_left_out(table, one)
    }),
    ("mod doesn't count", |table, one| {
        wd_by(table, one, true, true, &[DIVIDE])
    }),
    ("÷ doesn't count", |table, one| {
        wd_by(table, one, true, true, &[MOD])
    }),
    ("bool hides", |table, one| {
        wd_by(table, one, false, true, &[DIVIDE, MOD])
    }),
    ("sides never read don't count", |table, one| {
        wd_by(table, one, true, false, &[DIVIDE, MOD])
    }),
    ("only the root counts", |table, one| match one.kind {
        WD => {
            let node = table.nodes[one.item as usize - 1];
            node.operator != DIVIDE && node.operator != MOD
        }
        _ => is_left_out(table, one),
    }),
    ("WD of witnesses stays", |table, one| {
        let mut witnesses = table.witnesses(one.event);
        let of_witness = one.kind == WD && witnesses.any(|row| row.root == one.item);
        !of_witness && is_left_out(table, one)
    }),
];

#[test]
fn a_wrong_rule_for_wd_is_noticed() {
    for (what, leaves_out) in WD_RULES {
        let rules = Rules {
            leaves_out,
            ..RIGHT
        };
        assert_noticed(rules, what);
    }
}

/// The variables that the invariant of an INV mentions.
fn variables(table: &Table, sequent: &Sequent) -> Vec<i32> {
    let all = mentions(table, sequent.item).into_iter().map(|node| node.b);
    let kept = all.filter(|&one| table.identifiers[one as usize - 1].is_variable());
    kept.collect()
}

/// Leaves out INV of the events chosen where no variable has an action that counts, and WD as it should.
fn inv_by(
    table: &Table,
    one: &Sequent,
    may_lack: impl Fn(Event) -> bool,
    counts: impl Fn(&Formula) -> bool,
) -> bool {
    if one.kind != INV {
        return is_left_out(table, one);
    }
    let set = |&variable: &i32| table.action(one.event, variable).is_some_and(&counts);
    may_lack(table.events[one.event as usize - 1]) && !variables(table, one).iter().any(set)
}

fn right_events(event: Event) -> bool {
    is_new(event.class) || (event.machine == ABSTRACT && event.class != INITIALISATION)
}

/// Mistakes in what INV is left out.
const INV_RULES: [(&str, Rule); 13] = [
    ("every INV is made", |table, one| {
        one.kind != INV && is_left_out(table, one)
    }),
    ("refining events lack it too", |table, one| {
        inv_by(
            table,
            one,
            |event| right_events(event) || event.class == ORDINARY,
            |_| true,
        )
    }),
    ("initialisations lack it too", |table, one| {
        let initial = |event: Event| event.class == INITIALISATION;
        inv_by(
            table,
            one,
            |event| right_events(event) || initial(event),
            |_| true,
        )
    }),
    ("the abstract initialisation lacks it too", |table, one| {
        inv_by(
            table,
            one,
            |event| right_events(event) || event.machine == ABSTRACT,
            |_| true,
        )
    }),
    ("abstract events have it", |table, one| {
        inv_by(
            table,
            one,
            |event| event.machine == CONCRETE && right_events(event),
            |_| true,
        )
    }),
    ("convergent events have it", |table, one| {
        inv_by(
            table,
            one,
            |event| event.class != CONVERGENT && right_events(event),
            |_| true,
        )
    }),
    ("anticipated events have it", |table, one| {
        inv_by(
            table,
            one,
            |event| event.class != ANTICIPATED && right_events(event),
            |_| true,
        )
    }),
    ("rows 52 don't count", |table, one| {
        inv_by(table, one, right_events, |row| row.tag == BECOMES_EQUAL)
    }),
    ("rows 51 don't count", |table, one| {
        inv_by(table, one, right_events, |row| row.tag == BECOMES_SUCH_THAT)
    }),
    ("x := x doesn't count", |table, one| {
        inv_by(table, one, right_events, |row| {
            let node = table.nodes[row.root as usize - 1];
            node.operator != IDENTIFIER || node.b != row.identifier
        })
    }),
    ("shared variables don't count", |table, one| {
        inv_by(table, one, right_events, |row| {
            table.identifiers[row.identifier as usize - 1].kind != SHARED_VARIABLE
        })
    }),
    ("all its variables must be set", |table, one| {
        let all_set = || {
            let variables = variables(table, one);
            let set = |&variable: &i32| table.action(one.event, variable).is_some();
            !variables.is_empty() && variables.iter().all(set)
        };
        match one.kind {
            INV => may_lack_inv(table, one.event) && !all_set(),
            _ => is_left_out(table, one),
        }
    }),
    ("invariants without variables stay", |table, one| {
        let none = one.kind == INV && variables(table, one).is_empty();
        !none && is_left_out(table, one)
    }),
];

#[test]
fn a_wrong_rule_for_inv_is_noticed() {
    for (what, leaves_out) in INV_RULES {
        let rules = Rules {
            leaves_out,
            ..RIGHT
        };
        assert_noticed(rules, what);
    }
}

/// Hypotheses stay whole: a formula without WD of its own, or an invariant without INV, is still one.
#[test]
fn a_missing_hypothesis_is_noticed() {
    let changes: fn(&Table, &mut Sequent) = |table, sequent| {
        sequent.hypotheses.retain(|entry| {
            let found = || operators(table, entry.first, true, true);
            entry.form != 1 || divides_by(&found(), &[DIVIDE, MOD])
        });
    };
    let rules = Rules { changes, ..RIGHT };
    assert_noticed(rules, "hypotheses that don't divide are dropped");
}

/// How many names there are in these symbols, the lowest and the highest b.
fn counted<T: Ord>(spelled: &[Symbol], name: impl Fn(&Symbol) -> Option<(T, i32)>) -> [i32; 3] {
    let mut names: Vec<(T, i32)> = spelled.iter().filter_map(name).collect();
    names.sort();
    names.dedup_by(|one, other| one.0 == other.0);
    let numbers = || names.iter().map(|one| one.1);
    let (lowest, highest) = (numbers().min().unwrap_or(0), numbers().max().unwrap_or(0));
    [names.len() as i32, lowest, highest]
}

fn is_named(symbol: &Symbol) -> bool {
    matches!(symbol.operator, 2 | 3 | 40 | 41)
}

/// Mistakes in row 84.
const ROWS_84: [(&str, Count); 9] = [
    ("present and after values apart", |table, goal| {
        counted(&spell_out(table, goal), |one| {
            let after = one.operator == AFTER || one.operator == SOME_AFTER_VALUE;
            is_named(one).then_some(((one.b, after), one.b))
        })
    }),
    ("the bound identifier isn't counted", |table, goal| {
        counted(&spell_out(table, goal), |one| {
            matches!(one.operator, 2 | 3).then_some((one.b, one.b))
        })
    }),
    ("after values aren't counted", |table, goal| {
        counted(&spell_out(table, goal), |one| {
            matches!(one.operator, 2 | 40 | 41).then_some((one.b, one.b))
        })
    }),
    ("constants aren't counted", |table, goal| {
        counted(&spell_out(table, goal), |one| {
            let constant = || table.identifiers[one.b as usize - 1].kind == CONSTANT;
            (is_named(one) && !constant()).then_some((one.b, one.b))
        })
    }),
    ("WD counts its formula", |table, goal| {
        let form = if goal.form == 3 { 1 } else { goal.form };
        plain::counted(table, Entry { form, ..goal })
    }),
    ("each mention counts", |table, goal| {
        let spelled = spell_out(table, goal);
        let [_, lowest, highest] = plain::counted(table, goal);
        let all = spelled.iter().filter(|one| is_named(one)).count();
        [all as i32, lowest, highest]
    }),
    ("lowest and highest change places", |table, goal| {
        let [count, lowest, highest] = plain::counted(table, goal);
        [count, highest, lowest]
    }),
    ("identifier 64 is lost", |table, goal| {
        counted(&spell_out(table, goal), |one| {
            (is_named(one) && one.b < 64).then_some((one.b, one.b))
        })
    }),
    (
        "1 where there are none",
        |table, goal| match plain::counted(table, goal) {
            [0, ..] => [0, 1, 0],
            counted => counted,
        },
    ),
];

#[test]
fn a_wrong_row_84_is_noticed() {
    for (what, counts) in ROWS_84 {
        assert_noticed(Rules { counts, ..RIGHT }, what);
    }
}
