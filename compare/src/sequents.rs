//! The list of sequents of an accepted table, and the spelling of their entries.

use crate::checks::initialisation;
use crate::formula::{
    bare, spell, spell_after, spell_well_definedness, Symbol, AFTER, AT_MOST, EQUAL, IDENTIFIER,
    LESS, LITERAL, SOME_AFTER_VALUE, SOME_VALUE,
};
use crate::mentioned::Mentioned;
use crate::table::*;

pub const WD: i32 = 1;
pub const INV: i32 = 2;
pub const FIS: i32 = 3;
pub const GRD: i32 = 4;
pub const SIM: i32 = 5;
pub const WFIS: i32 = 6;
pub const NAT: i32 = 7;
pub const VAR: i32 = 8;

/// A hypothesis or goal: a form and two numbers.
#[derive(Clone, Copy, Debug, PartialEq, Eq)]
pub struct Entry {
    pub form: i32,
    pub first: i32,
    pub second: i32,
}

#[derive(Clone, Debug, PartialEq, Eq)]
pub struct Sequent {
    pub kind: i32,
    pub event: i32,
    pub item: i32,
    pub hypotheses: Vec<Entry>,
    pub goal: Entry,
}

impl Sequent {
    /// The hypotheses, and the goal last.
    pub fn entries(&self) -> Vec<Entry> {
        let mut entries = self.hypotheses.clone();
        entries.push(self.goal);
        entries
    }

    /// How many rows it is written in: 80, 84, one for each hypothesis, and 82.
    pub fn rows(&self) -> usize {
        self.hypotheses.len() + 3
    }
}

fn entry(form: i32, first: i32, second: i32) -> Entry {
    Entry {
        form,
        first,
        second,
    }
}

/// The node as written.
fn as_written(formula: &Formula) -> Entry {
    entry(1, formula.root, 0)
}

/// The sequents of an accepted table, in order.
pub fn sequents(table: &Table) -> Vec<Sequent> {
    list(table, &Mentioned::of(table))
}

/// The same, with what the formulas mention worked out before.
pub fn list(table: &Table, mentioned: &Mentioned) -> Vec<Sequent> {
    made(table, Some(mentioned))
}

/// The list before request 4, which leaves some of these out.
pub fn whole_list(table: &Table) -> Vec<Sequent> {
    made(table, None)
}

fn made(table: &Table, leaving_out: Option<&Mentioned>) -> Vec<Sequent> {
    let mut list = List {
        leaving_out,
        sequents: Vec::new(),
    };
    wd_of_axioms_and_invariants(table, &mut list);
    for number in 1..=table.events.len() as i32 {
        sequents_of_event(table, number, &mut list);
    }
    list.sequents
}

/// The list as far as it is made. Nothing is left out where it isn't known what formulas mention.
struct List<'a> {
    leaving_out: Option<&'a Mentioned>,
    sequents: Vec<Sequent>,
}

impl List<'_> {
    fn push(&mut self, sequent: Sequent) {
        self.sequents.push(sequent);
    }

    /// WD is left out where the formula has no ÷ and no mod.
    fn has_wd(&self, root: i32) -> bool {
        self.leaving_out.is_none_or(|known| known.divides(root))
    }

    /// INV is left out for an abstract, convergent or anticipated event that assigns no variable the invariant mentions;
    /// initialisations keep theirs.
    fn has_inv(&self, event: Event, number: i32, root: i32) -> bool {
        let keeps =
            event.class == INITIALISATION || (event.machine == CONCRETE && event.class == ORDINARY);
        keeps
            || self
                .leaving_out
                .is_none_or(|known| known.assigns(number, root))
    }
}

/// WD of axioms, invariants and variant, each under those before it.
fn wd_of_axioms_and_invariants(table: &Table, list: &mut List) {
    let mut before = Vec::new();
    for tag in [AXIOM, ABSTRACT_INVARIANT, CONCRETE_INVARIANT, VARIANT] {
        for formula in table.tagged(tag) {
            if list.has_wd(formula.root) {
                list.push(Sequent {
                    kind: WD,
                    event: 0,
                    item: formula.root,
                    hypotheses: before.clone(),
                    goal: entry(3, formula.root, 0),
                });
            }
            before.push(as_written(formula));
        }
    }
}

/// The hypotheses that an event's sequents are made of.
struct Hypotheses {
    base: Vec<Entry>,
    guards: Vec<Entry>,
    moves: Vec<Entry>,
    witnesses: Vec<Entry>,
    parameter_witnesses: Vec<Entry>,
}

impl Hypotheses {
    fn new(table: &Table, event: i32) -> Hypotheses {
        let names_parameter = |witness: &&Formula| {
            table.identifiers[witness.identifier as usize - 1].kind == ABSTRACT_PARAMETER
        };
        Hypotheses {
            base: base(table, event),
            guards: table.guards(event).map(as_written).collect(),
            moves: moves(
                event,
                table.variables(table.events[event as usize - 1].machine),
            ),
            witnesses: table.witnesses(event).map(as_written).collect(),
            parameter_witnesses: table
                .witnesses(event)
                .filter(names_parameter)
                .map(as_written)
                .collect(),
        }
    }

    fn base_and_guards(&self) -> Vec<Entry> {
        [&self.base[..], &self.guards].concat()
    }

    fn and_moves(&self) -> Vec<Entry> {
        [&self.base[..], &self.guards, &self.moves].concat()
    }
}

/// The axioms; then, except for initialisations, the event's invariants.
fn base(table: &Table, number: i32) -> Vec<Entry> {
    let event = table.events[number as usize - 1];
    let mut base: Vec<Entry> = table.tagged(AXIOM).map(as_written).collect();
    if event.class != INITIALISATION {
        base.extend(table.tagged(ABSTRACT_INVARIANT).map(as_written));
        if event.machine == CONCRETE {
            base.extend(table.tagged(CONCRETE_INVARIANT).map(as_written));
        }
    }
    base
}

/// Form 4 of the event for each of these variables.
fn moves(event: i32, variables: Vec<i32>) -> Vec<Entry> {
    let variables = variables.into_iter();
    variables
        .map(|variable| entry(4, event, variable))
        .collect()
}

/// The sequents of one event, in order.
fn sequents_of_event(table: &Table, number: i32, list: &mut List) {
    let event = table.events[number as usize - 1];
    let known = Hypotheses::new(table, number);
    wd_of_guards(table, number, &known, list);
    wd_of_actions(table, number, &known, list);
    fis(table, number, &known, list);
    if event.machine == CONCRETE && !is_new(event.class) {
        wd_and_wfis_of_witnesses(table, number, &known, list);
        grd(table, number, &known, list);
        sim(table, number, &known, list);
    }
    if is_new(event.class) {
        sim_of_shared(table, number, &known, list);
    }
    inv(table, number, &known, list);
    if event.class == CONVERGENT {
        nat(table, number, &known, list);
    }
    if is_new(event.class) {
        var(table, number, &known, list);
    }
}

fn wd_of_guards(table: &Table, event: i32, known: &Hypotheses, list: &mut List) {
    let mut hypotheses = known.base.clone();
    for guard in table.guards(event) {
        if list.has_wd(guard.root) {
            list.push(Sequent {
                kind: WD,
                event,
                item: guard.root,
                hypotheses: hypotheses.clone(),
                goal: entry(3, guard.root, 0),
            });
        }
        hypotheses.push(as_written(guard));
    }
}

/// The event's actions by variable.
fn actions(table: &Table, event: i32) -> Vec<Formula> {
    let machine = table.events[event as usize - 1].machine;
    table
        .variables(machine)
        .into_iter()
        .filter_map(|variable| table.action(event, variable).copied())
        .collect()
}

fn wd_of_actions(table: &Table, event: i32, known: &Hypotheses, list: &mut List) {
    for action in actions(table, event) {
        if list.has_wd(action.root) {
            list.push(Sequent {
                kind: WD,
                event,
                item: action.root,
                hypotheses: known.base_and_guards(),
                goal: entry(3, action.root, 0),
            });
        }
    }
}

fn fis(table: &Table, event: i32, known: &Hypotheses, list: &mut List) {
    for action in actions(table, event) {
        if action.tag == BECOMES_SUCH_THAT {
            list.push(Sequent {
                kind: FIS,
                event,
                item: action.identifier,
                hypotheses: known.base_and_guards(),
                goal: entry(5, event, action.identifier),
            });
        }
    }
}

fn wd_and_wfis_of_witnesses(table: &Table, event: i32, known: &Hypotheses, list: &mut List) {
    for witness in table.witnesses(event) {
        let target = table.identifiers[witness.identifier as usize - 1];
        let hypotheses = if target.is_variable() {
            known.and_moves()
        } else {
            known.base_and_guards()
        };
        if list.has_wd(witness.root) {
            list.push(Sequent {
                kind: WD,
                event,
                item: witness.root,
                hypotheses: hypotheses.clone(),
                goal: entry(3, witness.root, 0),
            });
        }
        list.push(Sequent {
            kind: WFIS,
            event,
            item: witness.identifier,
            hypotheses,
            goal: entry(6, event, witness.identifier),
        });
    }
}

/// Each guard of the refined event. An initialisation refines 0, which has no guards.
fn grd(table: &Table, event: i32, known: &Hypotheses, list: &mut List) {
    let refined = table.events[event as usize - 1].refined;
    for guard in table.guards(refined) {
        list.push(Sequent {
            kind: GRD,
            event,
            item: guard.root,
            hypotheses: [known.base_and_guards(), known.parameter_witnesses.clone()].concat(),
            goal: as_written(guard),
        });
    }
}

/// Each variable of the abstract machine, against the refined event or the abstract initialisation.
fn sim(table: &Table, number: i32, known: &Hypotheses, list: &mut List) {
    let event = table.events[number as usize - 1];
    let matched = if event.class == INITIALISATION {
        initialisation(table, ABSTRACT).unwrap_or(0)
    } else {
        event.refined
    };
    for variable in table.variables(ABSTRACT) {
        list.push(Sequent {
            kind: SIM,
            event: number,
            item: variable,
            hypotheses: [known.and_moves(), known.witnesses.clone()].concat(),
            goal: entry(4, matched, variable),
        });
    }
}

/// Each shared variable at an event that no abstract step matches: it keeps its value.
fn sim_of_shared(table: &Table, event: i32, known: &Hypotheses, list: &mut List) {
    for variable in table.of_kind(|kind| kind == SHARED_VARIABLE) {
        list.push(Sequent {
            kind: SIM,
            event,
            item: variable,
            hypotheses: known.and_moves(),
            goal: entry(10, variable, 0),
        });
    }
}

/// Each invariant of the event's own machine. Shared variables stand among the moves already.
fn inv(table: &Table, number: i32, known: &Hypotheses, list: &mut List) {
    let event = table.events[number as usize - 1];
    let last = if is_new(event.class) {
        moves(number, table.of_kind(|kind| kind == ABSTRACT_VARIABLE))
    } else {
        known.witnesses.clone()
    };
    let tag = if event.machine == ABSTRACT {
        ABSTRACT_INVARIANT
    } else {
        CONCRETE_INVARIANT
    };
    for invariant in table.tagged(tag) {
        if list.has_inv(event, number, invariant.root) {
            list.push(Sequent {
                kind: INV,
                event: number,
                item: invariant.root,
                hypotheses: [known.and_moves(), last.clone()].concat(),
                goal: entry(2, invariant.root, 0),
            });
        }
    }
}

fn nat(table: &Table, event: i32, known: &Hypotheses, list: &mut List) {
    for variant in table.tagged(VARIANT) {
        list.push(Sequent {
            kind: NAT,
            event,
            item: variant.root,
            hypotheses: known.base_and_guards(),
            goal: entry(7, variant.root, 0),
        });
    }
}

/// A convergent event lowers the variant, an anticipated one doesn't raise it. Without a variant there is none.
fn var(table: &Table, event: i32, known: &Hypotheses, list: &mut List) {
    let converges = table.events[event as usize - 1].class == CONVERGENT;
    let form = if converges { 8 } else { 9 };
    for variant in table.tagged(VARIANT) {
        list.push(Sequent {
            kind: VAR,
            event,
            item: variant.root,
            hypotheses: known.and_moves(),
            goal: entry(form, variant.root, 0),
        });
    }
}

/// The entry's formula in prefix order.
pub fn spell_out(table: &Table, entry: Entry) -> Vec<Symbol> {
    let mut out = Vec::new();
    let Entry {
        form,
        first,
        second,
    } = entry;
    match form {
        1 => spell(table, first, &mut out),
        2 => spell_after(table, first, &mut out),
        3 => spell_well_definedness(table, first, &mut out),
        4 => spell_move(table, first, second, &mut out),
        5 => {
            out.push(Symbol::new(SOME_AFTER_VALUE, second));
            spell_move(table, first, second, &mut out);
        }
        6 => spell_some_witness(table, first, second, &mut out),
        7 => {
            out.push(bare(AT_MOST));
            out.push(Symbol::new(LITERAL, 0));
            spell(table, first, &mut out);
        }
        8 => spell_variant_step(table, LESS, first, &mut out),
        9 => spell_variant_step(table, AT_MOST, first, &mut out),
        _ => spell_unchanged(first, &mut out),
    }
    out
}

/// The variable's after value equals its present one.
fn spell_unchanged(variable: i32, out: &mut Vec<Symbol>) {
    out.push(bare(EQUAL));
    out.push(Symbol::new(AFTER, variable));
    out.push(Symbol::new(IDENTIFIER, variable));
}

/// The variant after the step, compared with the variant before it.
fn spell_variant_step(table: &Table, operator: i32, root: i32, out: &mut Vec<Symbol>) {
    out.push(bare(operator));
    spell_after(table, root, out);
    spell(table, root, out);
}

/// The action's equation or predicate, or "after equals before" if unassigned.
fn spell_move(table: &Table, event: i32, variable: i32, out: &mut Vec<Symbol>) {
    match table.action(event, variable) {
        None => spell_unchanged(variable, out),
        Some(action) if action.tag == BECOMES_SUCH_THAT => spell(table, action.root, out),
        Some(action) => {
            out.push(bare(EQUAL));
            out.push(Symbol::new(AFTER, variable));
            spell(table, action.root, out);
        }
    }
}

/// Some value of the parameter, or some after value of the variable, meets the witness.
fn spell_some_witness(table: &Table, event: i32, identifier: i32, out: &mut Vec<Symbol>) {
    let target = table.identifiers[identifier as usize - 1];
    let operator = if target.is_variable() {
        SOME_AFTER_VALUE
    } else {
        SOME_VALUE
    };
    out.push(Symbol::new(operator, identifier));
    for witness in table.witnesses(event) {
        if witness.identifier == identifier {
            spell(table, witness.root, out);
        }
    }
}
