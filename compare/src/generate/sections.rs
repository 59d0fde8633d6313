//! Accepted tables in which it matters where rows stand: empty sections, sections of one row or at their limit, and rows of
//! several events in every order. A section is the rows of one tag.

use super::draft::Draft;
use super::plan::{Acting, ActionTags, Place, Plan};
use super::random::Random;
use crate::table::*;

const IDENTIFIERS: i32 = 10;
const NODES: i32 = 20;
const EVENTS: i32 = 40;

/// The tags in order.
pub const TAGS: [i32; 11] = [
    IDENTIFIERS,
    NODES,
    AXIOM,
    ABSTRACT_INVARIANT,
    CONCRETE_INVARIANT,
    EVENTS,
    GUARD,
    BECOMES_EQUAL,
    BECOMES_SUCH_THAT,
    WITNESS,
    VARIANT,
];

/// Sections of which each can be empty or not, whatever the others are. There are no nodes just where these are all empty,
/// and always events.
const FREE: [i32; 8] = [
    AXIOM,
    ABSTRACT_INVARIANT,
    CONCRETE_INVARIANT,
    GUARD,
    BECOMES_EQUAL,
    BECOMES_SUCH_THAT,
    WITNESS,
    VARIANT,
];

/// Any combination of the free sections; identifiers may be empty where no action and no witness names one.
pub const COMBINATIONS: usize = 256 + 32;

/// Sections that can be filled to a limit above one.
const FILLED: [i32; 10] = [
    IDENTIFIERS,
    NODES,
    AXIOM,
    ABSTRACT_INVARIANT,
    CONCRETE_INVARIANT,
    EVENTS,
    GUARD,
    BECOMES_EQUAL,
    BECOMES_SUCH_THAT,
    WITNESS,
];

/// The order of the rows in a section.
#[derive(Clone, Copy)]
enum Order {
    Mixed,
    ByEvent,
    Falling,
    /// One row of each event, then the next of each.
    InTurn,
    ByTarget,
    /// One event at both ends, the others between.
    AtEnds,
}

const ORDERS: [Order; 6] = [
    Order::Mixed,
    Order::ByEvent,
    Order::Falling,
    Order::InTurn,
    Order::ByTarget,
    Order::AtEnds,
];

/// Puts the rows of each section into an order of its own.
pub fn arrange(places: &mut Vec<Place>, random: &mut Random) {
    let mut arranged = Vec::new();
    for tag in TAGS {
        let mut section: Vec<Place> = places.iter().copied().filter(|one| one.0 == tag).collect();
        random.shuffle(&mut section);
        let order = random.pick(&ORDERS);
        put_in_order(&mut section, order, random);
        arranged.extend(section);
    }
    *places = arranged;
}

fn put_in_order(section: &mut Vec<Place>, order: Order, random: &mut Random) {
    let by_event = |&(_, event, target): &Place| (event, target);
    match order {
        Order::Mixed => {}
        Order::ByEvent => section.sort_by_key(by_event),
        Order::Falling => {
            section.sort_by_key(by_event);
            section.reverse();
        }
        Order::InTurn => {
            let same = |n: usize, one: &&Place| one.1 == section[n].1;
            let turn = |n: usize| section[..n].iter().filter(|one| same(n, one)).count();
            let mut rows: Vec<(usize, Place)> =
                (0..section.len()).map(|n| (turn(n), section[n])).collect();
            rows.sort_by_key(|(turn, place)| (*turn, place.1));
            *section = rows.into_iter().map(|(_, place)| place).collect();
        }
        Order::ByTarget => section.sort_by_key(|&(_, event, target)| (target, event)),
        Order::AtEnds => {
            let Some((_, event, _)) = random.maybe(section) else {
                return;
            };
            let (mut rows, others): (Vec<Place>, Vec<Place>) =
                section.iter().partition(|one| one.1 == event);
            let last = rows.split_off(rows.len().div_ceil(2));
            *section = [rows, others, last].concat();
        }
    }
}

/// Sections that aren't empty, and one that is at its limit, or 0.
struct Wanted {
    sections: Vec<i32>,
    full: i32,
}

/// A draft of any combination of empty sections, the others of few rows; or one section at its limit and most others empty.
pub fn sectioned(random: &mut Random) -> Draft {
    let plan = Wanted::any(random).plan(random);
    plan.draft(random)
}

/// Any plan, its rows arranged, with actions of few events or of both tags.
pub fn arranged(random: &mut Random) -> Draft {
    let size = random.pick(&[3, 6, 16]);
    let tags = [
        ActionTags::Any,
        ActionTags::AllButOneEqual,
        ActionTags::AllButOneSuchThat,
        ActionTags::ByEvent,
        ActionTags::InTurn,
    ];
    let plan = Plan {
        arranged: true,
        acting: random.pick(&[Acting::Any, Acting::Any, Acting::None, Acting::Last]),
        action_tags: random.pick(&tags),
        ..Plan::any(random, size)
    };
    plan.draft(random)
}

impl Wanted {
    fn any(random: &mut Random) -> Wanted {
        let full = if random.one_in(3) {
            random.pick(&FILLED)
        } else {
            0
        };
        // Each section in one of two tables, or in few; beside a full one in one of five.
        let cases = match full {
            0 => random.pick(&[2, 2, 2, 2, 8]),
            _ => 5,
        };
        let mut sections: Vec<i32> = FREE
            .into_iter()
            .filter(|&tag| tag == full || random.one_in(cases))
            .collect();
        if full == IDENTIFIERS || random.one_in(2) {
            sections.push(IDENTIFIERS);
        }
        if full == NODES && sections.is_empty() {
            sections.push(AXIOM);
        }
        Wanted { sections, full }
    }

    fn has(&self, tag: i32) -> bool {
        self.sections.contains(&tag)
    }

    /// How many rows of this tag, of at most so many.
    fn size(&self, tag: i32, most: usize, random: &mut Random) -> usize {
        if !self.has(tag) {
            0
        } else if self.full == tag {
            most
        } else {
            random.pick(&[1, 1, 2, 4]).min(most)
        }
    }

    fn acts(&self) -> bool {
        self.has(BECOMES_EQUAL) || self.has(BECOMES_SUCH_THAT)
    }

    fn plan(&self, random: &mut Random) -> Plan {
        let mut plan = Plan {
            axioms: self.size(AXIOM, Table::MOST_AXIOMS, random),
            abstract_invariants: self.size(ABSTRACT_INVARIANT, Table::MOST_INVARIANTS, random),
            concrete_invariants: self.size(CONCRETE_INVARIANT, Table::MOST_INVARIANTS, random),
            guards: self.size(GUARD, Table::MOST_GUARDS, random),
            actions: random.below(12),
            action_tags: self.action_tags(random),
            acting: random.pick(&[Acting::Any, Acting::None, Acting::Last]),
            nodes: random.pick(&[0, 0, 3, 10]),
            arranged: true,
            ..Plan::default()
        };
        self.set_events(&mut plan, random);
        self.set_identifiers(&mut plan, random);
        let others = 2 + plan.abstract_events + plan.new_events();
        plan.ordinary = plan.ordinary.min(Table::MOST_EVENTS - others);
        match self.full {
            NODES => plan.nodes = Table::MOST_NODES,
            BECOMES_EQUAL | BECOMES_SUCH_THAT => {
                plan.actions = Table::MOST_ACTIONS;
                plan.acting = Acting::Any;
            }
            _ => {}
        }
        plan
    }

    fn action_tags(&self, random: &mut Random) -> ActionTags {
        let both = [
            ActionTags::AllButOneEqual,
            ActionTags::AllButOneSuchThat,
            ActionTags::InTurn,
        ];
        match (self.has(BECOMES_EQUAL), self.has(BECOMES_SUCH_THAT)) {
            (true, true) => random.pick(&both),
            (true, false) => ActionTags::Equal,
            _ => ActionTags::SuchThat,
        }
    }

    fn set_events(&self, plan: &mut Plan, random: &mut Random) {
        if self.has(VARIANT) {
            let count = self.size(VARIANT, 3, random);
            plan.share_new_events(count, random);
            plan.variant = true;
        } else {
            plan.anticipated = random.pick(&[0, 0, 1, 3]);
        }
        plan.abstract_events = random.below(3);
        if self.full == EVENTS {
            let left = Table::MOST_EVENTS - 2 - plan.new_events();
            plan.abstract_events = random.between(1, left);
            plan.ordinary = left - plan.abstract_events;
        } else if plan.abstract_events > 0 {
            plan.ordinary = random.below(3);
        }
        if self.has(GUARD) && plan.abstract_events + plan.new_events() == 0 {
            plan.abstract_events = 1;
        }
    }

    fn set_identifiers(&self, plan: &mut Plan, random: &mut Random) {
        match (self.has(WITNESS), self.acts()) {
            (false, false) if !self.has(IDENTIFIERS) => return,
            (false, false) => {}
            (false, true) => self.set_concrete(plan, random),
            (true, false) => self.set_parameters(plan, random),
            (true, true) => self.set_both(plan, random),
        }
        if plan.ordinary == 0 && plan.abstract_events > 0 {
            plan.abstract_parameters = random.pick(&[0, 0, 1]);
        }
        if plan.ordinary + plan.new_events() > 0 && self.full == 0 {
            plan.concrete_parameters = random.pick(&[0, 0, 1, 3]);
        }
        self.set_shared(plan, random);
        let others = plan.other_identifiers();
        let left = Table::MOST_IDENTIFIERS - others;
        plan.constants = match self.full {
            IDENTIFIERS => left,
            _ if others == 0 => random.between(1, 3),
            _ => random.below(3).min(left),
        };
    }

    /// Some of the concrete variables become shared ones, or all of them.
    fn set_shared(&self, plan: &mut Plan, random: &mut Random) {
        let some = random.below(plan.concrete_variables + 1);
        match random.below(5) {
            0 => plan.share_concrete(plan.concrete_variables),
            1 => plan.share_concrete(some),
            _ => {}
        }
    }

    /// Actions without witnesses: concrete variables alone, of which some may be shared later.
    fn set_concrete(&self, plan: &mut Plan, random: &mut Random) {
        plan.concrete_variables = random.pick(&[1, 1, 2, 3, 5]);
        if self.full == BECOMES_EQUAL || self.full == BECOMES_SUCH_THAT {
            plan.abstract_events = 1;
            (plan.concrete_variables, plan.ordinary) =
                random.pick(&[(63, 2), (43, 2), (32, 3), (16, 7), (4, 29)]);
        }
        self.set_two(plan);
    }

    /// Two variables, where an action of each tag is wanted.
    fn set_two(&self, plan: &mut Plan) {
        if self.has(BECOMES_EQUAL) && self.has(BECOMES_SUCH_THAT) {
            let others = 2usize.saturating_sub(plan.abstract_variables);
            plan.concrete_variables = plan.concrete_variables.max(others);
        }
    }

    /// Witnesses without actions: parameters of one event that is refined.
    fn set_parameters(&self, plan: &mut Plan, random: &mut Random) {
        plan.abstract_events = 1;
        (plan.abstract_parameters, plan.ordinary) = if self.full == WITNESS {
            random.pick(&[(8, 16), (16, 8), (32, 4), (5, 27)])
        } else {
            random.pick(&[(1, 1), (1, 2), (2, 1), (3, 3)])
        };
        if self.full == EVENTS {
            plan.ordinary = Table::MOST_EVENTS - 3 - plan.new_events();
        }
    }

    fn set_both(&self, plan: &mut Plan, random: &mut Random) {
        if self.full == 0 && random.one_in(4) {
            // Witnesses of parameters, actions of shared variables.
            self.set_parameters(plan, random);
            return plan.add_shared(random.pick(&[1, 1, 2, 4]));
        }
        plan.abstract_variables = random.pick(&[1, 1, 2, 3]);
        plan.concrete_variables = random.pick(&[0, 0, 1, 3]);
        match self.full {
            WITNESS => {
                plan.abstract_events = 1;
                (plan.abstract_variables, plan.ordinary) =
                    random.pick(&[(32, 3), (16, 7), (8, 15), (4, 28)]);
            }
            BECOMES_EQUAL | BECOMES_SUCH_THAT => {
                plan.abstract_events = 1;
                (plan.concrete_variables, plan.ordinary) = random.pick(&[(32, 4), (16, 8)]);
            }
            _ => {}
        }
        if plan.ordinary > 0 && self.full == 0 {
            plan.abstract_parameters = random.pick(&[0, 0, 1, 2]);
        }
        self.set_two(plan);
    }
}
