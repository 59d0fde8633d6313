//! Request 4 the plain way, from spelled rows alone: what is left out of the list, and row 84.

use crate::formula::*;
use crate::sequents::{spell_out, whole_list, Entry, Sequent, INV, WD};
use crate::table::{is_new, Table, ABSTRACT, INITIALISATION};
use std::collections::BTreeSet;

/// The whole list without those that request 4 leaves out.
pub fn sequents(table: &Table) -> Vec<Sequent> {
    let mut list = whole_list(table);
    list.retain(|sequent| !is_left_out(table, sequent));
    list
}

/// WD of a formula without ÷ and mod; INV at an event that may lack it and assigns no variable of the invariant.
pub fn is_left_out(table: &Table, sequent: &Sequent) -> bool {
    match sequent.kind {
        WD => !divides(table, sequent.item),
        INV => may_lack_inv(table, sequent.event) && !assigns(table, sequent.event, sequent.item),
        _ => false,
    }
}

/// Whether INV may be left out at this event: abstract and no initialisation, convergent, or anticipated.
pub fn may_lack_inv(table: &Table, event: i32) -> bool {
    let event = table.events[event as usize - 1];
    let ordinary = event.machine == ABSTRACT && event.class != INITIALISATION;
    ordinary || is_new(event.class)
}

fn divides(table: &Table, root: i32) -> bool {
    let mut symbols = written(table, root).into_iter();
    symbols.any(|one| one.operator == DIVIDE || one.operator == MOD)
}

/// Whether the event has a row 51 or 52 for a variable that the formula mentions.
fn assigns(table: &Table, event: i32, root: i32) -> bool {
    let mut symbols = written(table, root).into_iter();
    symbols.any(|one| one.operator == IDENTIFIER && table.action(event, one.b).is_some())
}

fn written(table: &Table, root: i32) -> Vec<Symbol> {
    let mut symbols = Vec::new();
    spell(table, root, &mut symbols);
    symbols
}

/// The identifiers that an entry's rows 83 name: the b of operators 2, 3, 40 and 41.
pub fn identifiers(table: &Table, entry: Entry) -> BTreeSet<i32> {
    let names = [IDENTIFIER, AFTER, SOME_VALUE, SOME_AFTER_VALUE];
    let spelled = spell_out(table, entry).into_iter();
    let named = spelled.filter(|one| names.contains(&one.operator));
    named.map(|one| one.b).collect()
}

/// How many different ones there are, the lowest and the highest; 0 where there are none.
pub fn counted(table: &Table, goal: Entry) -> [i32; 3] {
    let found = identifiers(table, goal);
    let end = |number: Option<&i32>| number.copied().unwrap_or(0);
    [found.len() as i32, end(found.first()), end(found.last())]
}
