//! Words for tables in which request 4 matters: where ÷ and mod stand, which INV can be left out, and what goals mention.

use super::shared::standing;
use crate::formula::*;
use crate::plain::may_lack_inv;
use crate::sequents::{Sequent, INV};
use crate::table::*;
use std::collections::BTreeSet;

/// The words for an accepted table.
pub fn accepted(table: &Table) -> Vec<String> {
    let mut words: BTreeSet<String> = table
        .formulas
        .iter()
        .flat_map(|formula| divisions(table, *formula))
        .collect();
    words.extend(side_by_side(table));
    for number in 1..=table.events.len() as i32 {
        words.extend(invariants(table, number));
    }
    let named = words.into_iter();
    named.map(|word| format!("accepted, {word}")).collect()
}

/// Where in a formula ÷ and mod stand.
#[derive(Clone, Copy, Default)]
struct Found {
    divide: bool,
    modulo: bool,
    /// One that isn't under bool.
    bare: bool,
    /// One that may be read.
    read: bool,
}

impl Found {
    fn of(table: &Table, root: i32) -> Found {
        let mut found = Found::default();
        found.add(table, root, false, false);
        found
    }

    fn add(&mut self, table: &Table, root: i32, under_bool: bool, unread: bool) {
        let node = table.nodes[root as usize - 1];
        if node.operator == DIVIDE || node.operator == MOD {
            self.divide |= node.operator == DIVIDE;
            self.modulo |= node.operator == MOD;
            self.bare |= !under_bool;
            self.read |= !unread;
        }
        for (side, operand) in operands(node).into_iter().enumerate() {
            let under_bool = under_bool || node.operator == BOOL;
            let never = side == 1 && hides_right(table, node);
            self.add(table, operand, under_bool, unread || never);
        }
    }

    fn any(self) -> bool {
        self.divide || self.modulo
    }
}

/// Whether the right side is never read: that of ⊥ ∧, ⊥ ⇒ and ⊤ ∨.
fn hides_right(table: &Table, node: Node) -> bool {
    let left = table.node(node.b).map_or(0, |left| left.operator);
    match node.operator {
        AND | IMPLIES => left == BOTTOM,
        OR => left == TOP,
        _ => false,
    }
}

/// What a formula has of ÷ and mod, and where it stands.
fn divisions(table: &Table, formula: Formula) -> Vec<String> {
    let found = Found::of(table, formula.root);
    let stands = standing(table, formula);
    let words = [
        ("no division", !found.any()),
        ("÷ alone", found.divide && !found.modulo),
        ("mod alone", found.modulo && !found.divide),
        ("÷ and mod", found.divide && found.modulo),
        ("division under bool alone", found.any() && !found.bare),
        ("division never read", found.any() && !found.read),
    ];
    let said = words.into_iter().filter(|one| one.1);
    said.map(|(word, _)| format!("{word} in {stands}"))
        .collect()
}

/// Formulas of one sort with a division beside others without, so that WD of some is left out between others.
fn side_by_side(table: &Table) -> Vec<String> {
    let group = |formula: &Formula| match formula.tag {
        GUARD => "guards",
        WITNESS => "witnesses",
        _ if formula.is_action() => "actions",
        _ => "axioms and invariants",
    };
    let mut seen: BTreeSet<(&str, i32, bool)> = BTreeSet::new();
    for formula in &table.formulas {
        let divides = Found::of(table, formula.root).any();
        seen.insert((group(formula), formula.event, divides));
    }
    let both = |&&(group, event, divides): &&(&str, i32, bool)| {
        divides && seen.contains(&(group, event, false))
    };
    let found = seen.iter().filter(both);
    found
        .map(|(group, ..)| format!("division in some {group} of one event, not in others"))
        .collect()
}

/// What the invariants of an event's machine mention, and whether the event assigns it.
fn invariants(table: &Table, number: i32) -> Vec<String> {
    let event = table.events[number as usize - 1];
    let tag = if event.machine == ABSTRACT {
        ABSTRACT_INVARIANT
    } else {
        CONCRETE_INVARIANT
    };
    let at = stands_at(event);
    let mut words = Vec::new();
    for invariant in table.tagged(tag) {
        let said = mentioned(table, number, invariant.root);
        words.extend(said.into_iter().map(|word| format!("INV at {at}: {word}")));
    }
    words
}

fn stands_at(event: Event) -> &'static str {
    match (event.machine, event.class) {
        (ABSTRACT, INITIALISATION) => "the abstract initialisation",
        (ABSTRACT, _) => "an abstract event",
        (_, INITIALISATION) => "the concrete initialisation",
        (_, ORDINARY) => "a refining event",
        (_, CONVERGENT) => "a convergent event",
        _ => "an anticipated event",
    }
}

/// The words for what one invariant mentions.
fn mentioned(table: &Table, event: i32, root: i32) -> Vec<&'static str> {
    let all = mentions(table, root).into_iter().map(|node| node.b);
    let kind = |number: i32| table.identifiers[number as usize - 1].kind;
    let variables: BTreeSet<i32> = all.filter(|&one| is_variable(kind(one))).collect();
    let actions = variables.iter().filter_map(|&one| table.action(event, one));
    let set: Vec<&Formula> = actions.collect();
    let (none, unset) = (variables.is_empty(), set.is_empty());
    let acts = |row: &Formula| row.is_action() && row.event == event;
    let idle = !table.formulas.iter().any(acts);
    let only = |wanted: i32| !none && variables.iter().all(|&one| kind(one) == wanted);
    let unchanged = set.iter().all(|action| is_unchanged(table, action));
    let words = [
        ("no variable", none),
        ("a variable that is set", !unset),
        ("no variable that is set", !none && unset && !idle),
        ("variables, and no action at all", !none && idle),
        (
            "one that is set, one that isn't",
            !unset && set.len() < variables.len(),
        ),
        ("shared variables alone", only(SHARED_VARIABLE)),
        ("abstract variables alone", only(ABSTRACT_VARIABLE)),
        ("set by x := x alone", !unset && unchanged),
    ];
    let said = words.into_iter().filter(|one| one.1);
    said.map(|one| one.0).collect()
}

/// Whether this is an action x := x.
fn is_unchanged(table: &Table, action: &Formula) -> bool {
    let node = table.nodes[action.root as usize - 1];
    let same = node.operator == IDENTIFIER && node.b == action.identifier;
    action.tag == BECOMES_EQUAL && same
}

/// The words for a sequent by its goal, spelled out.
pub fn goals(table: &Table, sequent: &Sequent, spelled: &[Symbol]) -> Vec<&'static str> {
    let of = |wanted: &[i32]| -> BTreeSet<i32> {
        let named = spelled.iter().filter(|one| wanted.contains(&one.operator));
        named.map(|one| one.b).collect()
    };
    let (present, after) = (of(&[IDENTIFIER]), of(&[AFTER]));
    let bound = of(&[SOME_VALUE, SOME_AFTER_VALUE]);
    let free = of(&[IDENTIFIER, AFTER]);
    let all = &free | &bound;
    let (first, last) = (1, Table::MOST_IDENTIFIERS as i32);
    let words = [
        ("no identifier", all.is_empty()),
        (
            "identifiers 1 and 64",
            all.contains(&first) && all.contains(&last),
        ),
        ("identifier 64 alone", all.iter().eq([&last])),
        (
            "the bound identifier in 40 or 41 alone",
            !bound.is_subset(&free),
        ),
        (
            "present and after value of one identifier",
            !present.is_disjoint(&after),
        ),
        (
            "WD with fewer identifiers than its formula",
            has_fewer(table, sequent, &all),
        ),
        (
            "INV of an event that may lack it",
            sequent.kind == INV && may_lack_inv(table, sequent.event),
        ),
    ];
    let said = words.into_iter().filter(|one| one.1);
    said.map(|one| one.0).collect()
}

/// Whether this is WD and its formula mentions more than these.
fn has_fewer(table: &Table, sequent: &Sequent, these: &BTreeSet<i32>) -> bool {
    let formula = || mentions(table, sequent.item).into_iter();
    sequent.goal.form == 3 && formula().any(|node| !these.contains(&node.b))
}
