//! Tables made to be replayed: machines of every shape with few formulas, most of which some logged values make faulty.

use super::terms::{formula, Wanted};
use crate::generate::draft::{Draft, DraftFormula};
use crate::generate::plan::{root_sort, sight, Plan};
use crate::generate::random::Random;
use crate::table::*;

/// A draft of an accepted table with few of everything.
pub fn replayed(random: &mut Random) -> Draft {
    let plan = few(random);
    with_formulas(plan, 4, random)
}

/// The same at the limits or near them; its formulas are true for most values, so that all of one event can be.
pub fn large(random: &mut Random) -> Draft {
    let plan = many(random);
    with_formulas(plan, 18, random)
}

/// The formulas that a replay reads, each with a value for so many of 24 values, as long as there are nodes for them.
pub fn with_formulas(plan: Plan, often: usize, random: &mut Random) -> Draft {
    let mut draft = plan.draft(random);
    let mut left = Table::MOST_NODES - draft.nodes();
    for place in 0..draft.formulas.len() {
        let one = &draft.formulas[place];
        if !is_read(&draft, one) {
            continue;
        }
        let seen = sight(&draft, one.tag, one.event, one.identifier);
        let wanted = Wanted {
            sort: root_sort(&draft, one.tag, one.identifier),
            most: left + 1,
            often,
        };
        let tree = formula(wanted, &seen, random);
        left = left + 1 - tree.nodes();
        draft.formulas[place].tree = tree;
    }
    draft
}

/// Whether a replay reads it: an axiom, or a guard or action of a concrete event.
fn is_read(draft: &Draft, one: &DraftFormula) -> bool {
    match one.tag {
        AXIOM => true,
        GUARD | BECOMES_EQUAL | BECOMES_SUCH_THAT => {
            draft.events[one.event as usize - 1][0] == CONCRETE
        }
        _ => false,
    }
}

/// As many of everything as a table may have, or one or two fewer.
pub fn many(random: &mut Random) -> Plan {
    let mut near = |limit: usize| limit - random.below(3);
    Plan {
        constants: near(10),
        concrete_variables: near(20),
        shared_variables: near(10),
        concrete_parameters: near(24),
        abstract_events: 1,
        ordinary: near(10),
        convergent: near(9),
        anticipated: near(10),
        axioms: near(16),
        guards: near(64),
        actions: near(128),
        ..Plan::default()
    }
}

/// Few of everything, or none.
pub fn few(random: &mut Random) -> Plan {
    let mut plan = Plan {
        constants: random.pick(&[0, 1, 2, 2, 3]),
        abstract_variables: random.pick(&[0, 0, 1]),
        concrete_variables: random.pick(&[0, 1, 1, 2, 3]),
        abstract_parameters: random.pick(&[0, 0, 1]),
        abstract_events: random.pick(&[1, 1, 2]),
        ordinary: random.pick(&[0, 1, 1, 2]),
        axioms: random.pick(&[0, 1, 1, 2]),
        guards: random.pick(&[0, 1, 3, 5]),
        ..Plan::default()
    };
    plan.add_shared(random.pick(&[0, 0, 1, 2]));
    plan.share_new_events(random.pick(&[0, 1, 1, 2]), random);
    if plan.ordinary + plan.new_events() > 0 {
        plan.concrete_parameters = random.pick(&[0, 1, 2, 4]);
    }
    let concrete = plan.concrete_variables + plan.shared_variables;
    let initial = concrete + plan.shared_variables + plan.abstract_variables;
    let events = plan.ordinary + plan.new_events() + plan.abstract_events;
    plan.actions = initial + random.below(concrete * events + 1);
    plan
}
