//! Which replies request 8 changes: exactly the 17s whose first fault, from the left and operands before their operator, is
//! outside 64 bits, and they become 16 with the same row. The first fault is found by a walk of its own.

use crate::common::faults::GATE;
use crate::common::first_fault::{walk, Values};
use crate::common::plain_press;
use crate::common::plain_replay::{term, Mistake, Plain};
use crate::common::wrong_orders::At;
use compare::against::Reply;
use compare::checks::accept;
use compare::formula::*;
use compare::press::{Cause, Panel, Record};
use compare::presses::Presses;
use compare::replay::log::Log;
use compare::replay::machine::{Change, Machine, Step};
use compare::replay::term::State;
use compare::replay::{Role, Stop, OUTSIDE, UNDEFINED};
use compare::replays::reply;
use compare::runs;
use compare::states;
use compare::table::Table;
use std::collections::BTreeMap;

/// Replies as they were before.
const FORMER: Mistake = Mistake::Former(At::All);

/// The formula by whose fault a call is stopped, the values that it sees, and its first fault.
#[derive(Clone)]
struct Stopped {
    role: Role,
    root: i32,
    values: Values,
    number: i32,
}

/// Where the former order gave 17: at an operator with an undefined right operand, or at one that is undefined itself.
#[derive(Clone, Copy, Debug, PartialEq, Eq, PartialOrd, Ord)]
enum Place {
    RightOperand(i32),
    Booleans,
    Operator(i32),
}

/// How many calls there are, and how many of them have another reply now.
#[derive(Debug, Default)]
struct Changes {
    calls: usize,
    changed: usize,
    places: BTreeMap<Place, usize>,
    roles: BTreeMap<Role, usize>,
}

/// The sentence of the request.
fn new_reply(former: Reply, first_fault: Option<i32>) -> Reply {
    match first_fault {
        Some(OUTSIDE) if former.number == UNDEFINED as u64 => Reply {
            number: OUTSIDE as u64,
            ..former
        },
        _ => former,
    }
}

impl Changes {
    fn add(&mut self, table: &Table, new: Reply, former: Reply, stopped: Option<Stopped>) {
        let first = stopped.as_ref().map(|one| one.number);
        assert_eq!(new, new_reply(former, first), "formerly {former}");
        // The walk and the reply agree on the first fault, changed or not.
        let is_fault = (16..=17).contains(&new.number);
        assert!(!is_fault || first == Some(new.number as i32), "{new}");
        self.calls += 1;
        if let Some(stopped) = stopped.filter(|_| new != former) {
            self.changed += 1;
            let place = place(table, stopped.root, &stopped.values);
            *self.places.entry(place).or_default() += 1;
            *self.roles.entry(stopped.role).or_default() += 1;
        }
    }

    /// The changes are so many, at every operator and in every formula.
    fn assert_often(&self, all: usize, one: usize) {
        println!("{self:?}");
        assert!(self.changed >= all, "{self:?}");
        let arithmetic = [PLUS, MINUS, TIMES, DIVIDE, MOD, EQUAL, LESS, AT_MOST];
        let mut places = arithmetic.map(Place::RightOperand).to_vec();
        places.extend([DIVIDE, MOD].map(Place::Operator));
        places.push(Place::Booleans);
        for place in places {
            assert!(self.places.get(&place) >= Some(&one), "{place:?}: {self:?}");
        }
        for role in [Role::Axiom, Role::Guard, Role::Equal, Role::SuchThat] {
            assert!(self.roles.get(&role) >= Some(&one), "{role:?}: {self:?}");
        }
    }
}

/// The lowest node on the way to the first fault that was undefined before.
fn place(table: &Table, root: i32, values: &Values) -> Place {
    let was_undefined = |node| term(FORMER, table, node, *values) == Err(UNDEFINED);
    let node = table.nodes[root as usize - 1];
    let is_faulty = |&one: &i32| walk(&table.nodes, one, values).is_err();
    let first = operands(node).into_iter().find(is_faulty);
    let first = first.expect("no operator is both");
    if was_undefined(first) {
        return place(table, first, values);
    }
    let booleans = sort(table, table.nodes[node.b as usize - 1]) == Sort::Boolean;
    match was_undefined(node.c) {
        true if booleans => Place::Booleans,
        true => Place::RightOperand(node.operator),
        false => Place::Operator(node.operator),
    }
}

/// A step's formulas in order, up to the first that doesn't allow it: nothing if one is false.
fn judge(
    table: &Table,
    conditions: &[(Role, i32)],
    step: &Step,
    state: &State,
    logged: bool,
) -> Result<(), Option<Stopped>> {
    let values = (state.now.map(i128::from), state.after.map(i128::from));
    let value = |role, root| {
        let stopped = |number| Stopped {
            role,
            root,
            values,
            number,
        };
        walk(&table.nodes, root, &values).map_err(|number| Some(stopped(number)))
    };
    let wanted = |is: bool| if is { Ok(()) } else { Err(None) };
    for &(role, root) in conditions {
        wanted(value(role, root)? == 1)?;
    }
    for &(place, change) in &step.variables {
        let (now, after) = (values.0[place], values.1[place]);
        match change {
            Change::Equal(root) => {
                let value = value(Role::Equal, root)?;
                wanted(!logged || value == after)?;
            }
            Change::SuchThat(root) => wanted(value(Role::SuchThat, root)? == 1)?,
            Change::Kept => wanted(!logged || now == after)?,
        }
    }
    Ok(())
}

/// The fault that stops a log, if one does.
fn stops_log(table: &Table, machine: &Machine, run: &[u8]) -> Option<Stopped> {
    let (mut log, mut state) = (Log::new(run), State::default());
    let mut first = true;
    while first || !log.is_at_end() {
        let step = machine.read(&mut log, first, &mut state).ok()?;
        if let Err(stopped) = judge(table, &step.conditions, step, &state, true) {
            return stopped;
        }
        step.settle(&mut state);
        first = false;
    }
    None
}

/// The fault that stops a press, if one does.
fn stops_press(table: &Table, panel: &Panel, step: &[u8], list: &[Record]) -> Option<Stopped> {
    let (step, state) = panel.begin(step, list).ok()?;
    let conditions = [panel.axioms(), &step.conditions].concat();
    judge(table, &conditions, step, &state, false).err()?
}

fn add_logs(changes: &mut Changes, batch: &runs::batch::Batch) {
    let Ok(table) = accept(&batch.table) else {
        return;
    };
    let machine = Machine::of(&table);
    for log in &batch.logs {
        let new = reply(machine.replay(log).map_err(Stop::refusal));
        let former = reply(Plain(FORMER).answer_for(&table, log));
        changes.add(&table, new, former, stops_log(&table, &machine, log));
    }
}

/// Presses, and previews apart from them; no list differs.
fn add_presses(presses: &mut Changes, previews: &mut Changes, batch: &states::batch::Batch) {
    let Ok(table) = accept(&batch.table) else {
        return;
    };
    let (panel, former) = (Panel::of(&table), plain_press::Mistake::Term(FORMER));
    let former = plain_press::Plain(former);
    let answer = |made: Result<(), Cause>| reply(made.map(|()| 0).map_err(Cause::refusal));
    let mut list = Vec::new();
    for case in &batch.cases {
        list = case.state.clone().unwrap_or(list);
        let stopped = stops_press(&table, &panel, &case.step, &list);
        let (mut second, mut formerly) = (case.second.clone(), case.second.clone());
        let new = answer(panel.preview(&case.step, &list, &mut second));
        let old = former.preview(&batch.table, &case.step, &mut list.clone(), &mut formerly);
        assert_eq!(second, formerly);
        previews.add(&table, new, old, stopped.clone());
        let mut formerly = list.clone();
        let new = answer(panel.press(&case.step, &mut list));
        let old = former.press(&batch.table, &case.step, &mut formerly);
        assert_eq!(list, formerly);
        presses.add(&table, new, old, stopped);
    }
}

#[test]
fn logs_change_as_the_request_says() {
    let mut changes = Changes::default();
    for number in 0..GATE / runs::batch::LOGS as u64 {
        add_logs(&mut changes, &runs::batch::batch(number));
    }
    changes.assert_often(500, 20);
}

#[test]
fn presses_and_previews_change_as_the_request_says() {
    let (mut presses, mut previews) = (Changes::default(), Changes::default());
    for number in 0..GATE / states::batch::CASES as u64 {
        add_presses(&mut presses, &mut previews, &states::batch::batch(number));
    }
    presses.assert_often(700, 25);
    previews.assert_often(700, 25);
}

/// Every operator over operands of every class, in every formula.
#[test]
fn the_families_change_as_the_request_says() {
    let mut logs = Changes::default();
    for batch in runs::family::whole_family() {
        add_logs(&mut logs, &batch);
    }
    logs.assert_often(200, 5);
    let (mut presses, mut previews) = (Changes::default(), Changes::default());
    for batch in states::family::whole_family() {
        add_presses(&mut presses, &mut previews, &batch);
    }
    presses.assert_often(150, 4);
    previews.assert_often(150, 4);
}
