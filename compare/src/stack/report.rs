//! Measures the stack that each service uses on the tables at the limits.

use super::tables::{groups, Group};
use super::{judged, measure};
use crate::against::{Call, Services};
use crate::checks::accept;
use crate::rows::ROW_BYTES;
use crate::sequents::{sequents, spell_out, Sequent};
use crate::table::Table;
use std::cmp::Reverse;
use std::collections::BTreeMap;
use std::fmt::Display;

/// The call of one service that used most on the tables of a group.
#[derive(Clone, Default)]
struct Most {
    bytes: usize,
    call: String,
    /// What check used with the same table.
    check: usize,
}

/// So many of the largest calls are shown.
const SHOWN: usize = 5;

/// Write sequent and spell entry check the table first; where they use more than so many bytes more, it is by their own work.
const OWN: usize = 2048;

/// A line for each group, then the largest calls. An error if less is stated than the largest use and a third more.
pub fn report(services: &dyn Services) -> Result<String, String> {
    let head = ["tables", "rows", "check", "write", "spell"];
    let mut text = line("bytes of stack", head);
    let (mut checks, mut others) = (Vec::new(), Vec::new());
    for group in groups() {
        let rows = group.tables.iter().map(|one| one.1.len() / ROW_BYTES);
        let (tables, rows) = (group.tables.len(), rows.max().unwrap_or(0));
        let [check, write, spell] = most(services, &group)?;
        let numbers = [tables, rows, check.bytes, write.bytes, spell.bytes];
        text += &line(&group.name, numbers);
        checks.push(check);
        others.extend([write, spell]);
    }
    let all = checks.iter().chain(&others);
    let largest = all.map(|one| one.bytes).max().unwrap_or(0);
    others.retain(|one| one.bytes > one.check + OWN);
    text += &list("largest: check", checks);
    text += &list("largest: where check of the same table uses less", others);
    judged(text + "\n", largest)
}

fn line<T: Display>(name: &str, cells: [T; 5]) -> String {
    let [tables, rows, check, write, spell] = cells;
    format!("{name:<32} {tables:>6} {rows:>5} {check:>7} {write:>7} {spell:>7}\n")
}

fn list(title: &str, mut calls: Vec<Most>) -> String {
    calls.sort_by_key(|one| Reverse(one.bytes));
    let shown = calls.iter().take(SHOWN);
    let lines = shown.map(|one| format!("{:>8}  {}\n", one.bytes, one.call));
    format!("\n{title}\n{}", lines.collect::<String>())
}

/// The largest use by check, write sequent and spell entry.
fn most(services: &dyn Services, group: &Group) -> Result<[Most; 3], String> {
    let mut most: [Most; 3] = Default::default();
    for (words, table) in &group.tables {
        let name = format!("{} {words}", group.name);
        let mut check = 0;
        for (call, number) in calls(table) {
            let (reply, bytes) = measure(services, table, call);
            let (service, call) = shown(call);
            let call = format!("{call}; {}", name.trim_end());
            if reply.number != number {
                return Err(format!("{call}: {} instead of {number}", reply.number));
            }
            if service == 0 {
                check = bytes;
            }
            if bytes > most[service].bytes {
                most[service] = Most { bytes, call, check };
            }
        }
    }
    Ok(most)
}

/// The service's place among the three, and the call in words.
fn shown(call: Call) -> (usize, String) {
    match call {
        Call::Check => (0, "check".to_string()),
        Call::Write { k, .. } => (1, format!("write sequent {k}")),
        Call::Spell { k, j, .. } => (2, format!("spell entry {j} of sequent {k}")),
    }
}

/// The calls to make with a table, check first, each with the number that it must answer.
fn calls(table: &[u8]) -> Vec<(Call, u64)> {
    let table = match accept(table) {
        Ok(table) => table,
        Err(refusal) => {
            let (k, j, room) = (1, 1, 0);
            let all = [
                Call::Check,
                Call::Write { k, room },
                Call::Spell { k, j, room },
            ];
            return all.map(|call| (call, refusal.number as u64)).to_vec();
        }
    };
    let list = sequents(&table);
    let mut calls = vec![(Call::Check, 0)];
    for k in sequents_to_write(&list) {
        let room = list[k - 1].rows() * ROW_BYTES;
        calls.push((Call::Write { k: k as u64, room }, 0));
    }
    for (k, j, rows) in entries_to_spell(&table, &list) {
        let (k, j, room) = (k as u64, j as u64, rows * ROW_BYTES);
        calls.push((Call::Spell { k, j, room }, 0));
    }
    let (count, j, room) = (list.len() as u64, 1, 0);
    let k = count + 1;
    calls.push((Call::Write { k, room }, 13));
    calls.push((Call::Spell { k, j, room }, 13));
    if count > 0 {
        let (k, past) = (count, u64::MAX);
        calls.push((Call::Write { k, room }, 15));
        calls.push((Call::Spell { k, j, room }, 15));
        calls.push((Call::Spell { k, j: past, room }, 14));
    }
    calls
}

/// The last sequent of each kind and the longest one, counted from 1.
fn sequents_to_write(list: &[Sequent]) -> Vec<usize> {
    let last = |kind| list.iter().rposition(|one| one.kind == kind);
    let longest = (0..list.len()).max_by_key(|&at| list[at].hypotheses.len());
    let chosen = (1..=8).filter_map(last).chain(longest);
    chosen.map(|at| at + 1).collect()
}

/// The longest entry of each form, where it comes last, and the last goal: sequent, entry and rows.
fn entries_to_spell(table: &Table, list: &[Sequent]) -> Vec<(usize, usize, usize)> {
    let mut lengths = BTreeMap::new();
    let mut longest: BTreeMap<i32, (usize, usize, usize)> = BTreeMap::new();
    let mut last = None;
    for (at, sequent) in list.iter().enumerate() {
        for (place, entry) in sequent.entries().into_iter().enumerate() {
            let key = (entry.form, entry.first, entry.second);
            let length = || spell_out(table, entry).len();
            let rows = *lengths.entry(key).or_insert_with(length);
            let best = longest.entry(entry.form).or_default();
            if rows >= best.2 {
                *best = (at + 1, place + 1, rows);
            }
            last = Some((at + 1, place + 1, rows));
        }
    }
    longest.into_values().chain(last).collect()
}
