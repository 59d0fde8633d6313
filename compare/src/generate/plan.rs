//! Accepted tables: first how many of everything, then the draft itself.

use super::damage::is_action;
use super::draft::{Draft, DraftFormula};
use super::random::Random;
use super::sections::arrange;
use super::tree::{least_dividing, Grower, Leaf, Tree};
use crate::formula::{Sort, AFTER, DIVIDE, EQUAL, IDENTIFIER, LITERAL, MOD, NEGATION};
use crate::table::*;

/// How actions are shared between rows 51 and 52.
#[derive(Clone, Copy, Debug, Default, PartialEq, Eq)]
pub enum ActionTags {
    #[default]
    Any,
    Equal,
    SuchThat,
    /// One of them has the other tag.
    AllButOneEqual,
    AllButOneSuchThat,
    ByEvent,
    InTurn,
}

/// Which events besides the initialisations have actions.
#[derive(Clone, Copy, Debug, Default, PartialEq, Eq)]
pub enum Acting {
    #[default]
    Any,
    None,
    Last,
}

/// How many of everything. `guards_at` is one event for all guards, or 0 for any. Convergent events have a variant,
/// anticipated ones alone only if `variant` says so.
/// Rows of one tag stand in any order unless they are `arranged`. `nodes` come on top of one for each formula, `spare_nodes`
/// are left to the limit; if the plan is `dividing`, as many formulas have ÷ or mod as these nodes are enough for.
#[derive(Clone, Debug, Default)]
pub struct Plan {
    pub constants: usize,
    pub abstract_variables: usize,
    pub concrete_variables: usize,
    pub shared_variables: usize,
    pub abstract_parameters: usize,
    pub concrete_parameters: usize,
    pub abstract_events: usize,
    pub ordinary: usize,
    pub convergent: usize,
    pub anticipated: usize,
    pub variant: bool,
    pub axioms: usize,
    pub abstract_invariants: usize,
    pub concrete_invariants: usize,
    pub guards: usize,
    pub guards_at: i32,
    pub actions: usize,
    pub action_tags: ActionTags,
    pub acting: Acting,
    pub arranged: bool,
    pub nodes: usize,
    pub spare_nodes: usize,
    pub dividing: bool,
}

/// A formula's row before it has a tree: tag, event, identifier.
pub type Place = (i32, i32, i32);

impl Plan {
    /// Any plan in which no part has more than about `size`.
    pub fn any(random: &mut Random, size: usize) -> Plan {
        let nodes = random.below((16 * size).min(Table::MOST_NODES) + 1);
        let actions = random.below((5 * size).min(Table::MOST_ACTIONS) + 1);
        let guards = random.below((2 * size).min(Table::MOST_GUARDS) + 1);
        let mut most = |limit: usize| random.below(size.min(limit) + 1);
        let new_events = most(10);
        let mut plan = Plan {
            constants: most(12),
            abstract_variables: most(12),
            concrete_variables: most(16),
            abstract_parameters: most(12),
            concrete_parameters: most(12),
            abstract_events: most(8),
            ordinary: most(12),
            axioms: most(16),
            abstract_invariants: most(16),
            concrete_invariants: most(16),
            guards,
            actions,
            nodes,
            ..Plan::default()
        };
        plan.share_new_events(new_events, random);
        plan.make_shared(random);
        plan.within_limits()
    }

    /// Makes variables of one machine shared ones: none in five of twelve cases, else any, all of either machine, or all.
    fn make_shared(&mut self, random: &mut Random) {
        let (all_abstract, all_concrete) = (self.abstract_variables, self.concrete_variables);
        let some_abstract = random.below(all_abstract + 1);
        let some_concrete = random.below(all_concrete + 1);
        let (from_abstract, from_concrete) = match random.below(12) {
            0 => (all_abstract, all_concrete),
            1 => (all_abstract, some_concrete),
            2 => (some_abstract, all_concrete),
            3..=6 => (some_abstract, some_concrete),
            _ => (0, 0),
        };
        self.abstract_variables -= from_abstract;
        self.concrete_variables -= from_concrete;
        self.add_shared(from_abstract + from_concrete);
    }

    /// So many shared variables more, with room for their second initial action.
    pub fn add_shared(&mut self, count: usize) {
        self.shared_variables += count;
        self.actions = (self.actions + count).min(Table::MOST_ACTIONS);
    }

    /// So many of the concrete variables become shared ones.
    pub fn share_concrete(&mut self, count: usize) {
        self.concrete_variables -= count;
        self.add_shared(count);
    }

    /// How many identifiers there are besides constants.
    pub fn other_identifiers(&self) -> usize {
        self.abstract_variables
            + self.concrete_variables
            + self.shared_variables
            + self.abstract_parameters
            + self.concrete_parameters
    }

    /// So many new events: of either class alone in one case of four, else of both if there are two or more.
    pub fn share_new_events(&mut self, count: usize, random: &mut Random) {
        self.convergent = match random.below(4) {
            0 => 0,
            1 => count,
            _ if count < 2 => random.below(count + 1),
            _ => random.between(1, count - 1),
        };
        self.anticipated = count - self.convergent;
        self.variant = random.one_in(2);
    }

    /// How many events are convergent or anticipated.
    pub fn new_events(&self) -> usize {
        self.convergent + self.anticipated
    }

    /// Lowers what wouldn't fit together.
    fn within_limits(mut self) -> Plan {
        if self.abstract_events == 0 {
            self.ordinary = 0;
            self.abstract_parameters = 0;
        }
        if self.ordinary + self.new_events() == 0 {
            self.concrete_parameters = 0;
        }
        while self.abstract_variables * (1 + self.ordinary) > Table::MOST_WITNESSES {
            self.ordinary -= 1;
        }
        self
    }

    /// A draft that meets the plan and every rule of a table.
    pub fn draft(&self, random: &mut Random) -> Draft {
        let mut draft = Draft::default();
        self.add_events(&mut draft, random);
        self.add_identifiers(&mut draft, random);
        while witness_places(&draft).len() > Table::MOST_WITNESSES {
            drop_abstract_parameter(&mut draft);
        }
        let mut places = self.places(&draft, random);
        if self.arranged {
            arrange(&mut places, random);
        } else {
            random.shuffle(&mut places);
        }
        self.grow_formulas(&mut draft, &places, random);
        draft
    }

    fn add_events(&self, draft: &mut Draft, random: &mut Random) {
        draft.events.push([ABSTRACT, INITIALISATION, 0]);
        for _ in 0..self.abstract_events {
            draft.events.push([ABSTRACT, ORDINARY, 0]);
        }
        draft.events.push([CONCRETE, INITIALISATION, 0]);
        let mut others = Vec::new();
        for _ in 0..self.ordinary {
            let refined = random.between(2, 1 + self.abstract_events);
            others.push([CONCRETE, ORDINARY, refined as i32]);
        }
        others.extend(vec![[CONCRETE, CONVERGENT, 0]; self.convergent]);
        others.extend(vec![[CONCRETE, ANTICIPATED, 0]; self.anticipated]);
        random.shuffle(&mut others);
        draft.events.extend(others);
    }

    fn add_identifiers(&self, draft: &mut Draft, random: &mut Random) {
        let counts = [
            (CONSTANT, self.constants),
            (ABSTRACT_VARIABLE, self.abstract_variables),
            (CONCRETE_VARIABLE, self.concrete_variables),
            (SHARED_VARIABLE, self.shared_variables),
            (ABSTRACT_PARAMETER, self.abstract_parameters),
            (CONCRETE_PARAMETER, self.concrete_parameters),
        ];
        for (kind, count) in counts {
            for _ in 0..count {
                let owner = any_owner(draft, kind, random);
                let boolean = random.one_in(3);
                let type_number = if boolean { BOOLEAN } else { INTEGER };
                draft.identifiers.push([kind, type_number, owner]);
            }
        }
        if !random.one_in(3) {
            random.shuffle(&mut draft.identifiers);
        }
    }

    /// The rows that will name roots.
    fn places(&self, draft: &Draft, random: &mut Random) -> Vec<Place> {
        let mut places = vec![(AXIOM, 0, 0); self.axioms];
        places.extend(vec![(ABSTRACT_INVARIANT, 0, 0); self.abstract_invariants]);
        places.extend(vec![(CONCRETE_INVARIANT, 0, 0); self.concrete_invariants]);
        places.extend(self.guard_places(draft, random));
        places.extend(self.action_places(draft, random));
        places.extend(witness_places(draft));
        if self.convergent > 0 || (self.variant && self.anticipated > 0) {
            places.push((VARIANT, 0, 0));
        }
        places
    }

    fn guard_places(&self, draft: &Draft, random: &mut Random) -> Vec<Place> {
        let events = numbers_of(&draft.events, |event| event[1] != INITIALISATION);
        let all_at = if self.guards_at == 0 && random.one_in(4) {
            random.maybe(&events).unwrap_or(0)
        } else {
            self.guards_at
        };
        let mut places = Vec::new();
        for _ in 0..self.guards {
            if let Some(event) = random.maybe(&events) {
                let event = if all_at == 0 { event } else { all_at };
                places.push((GUARD, event, 0));
            }
        }
        places
    }

    fn action_places(&self, draft: &Draft, random: &mut Random) -> Vec<Place> {
        let (mut initial, mut others) = (Vec::new(), Vec::new());
        for (n, event) in draft.events.iter().enumerate() {
            let own = |one: &[i32; 3]| is_variable_of(event[0], one[0]);
            for variable in numbers_of(&draft.identifiers, own) {
                let any = self.action_tags == ActionTags::Any;
                let tag = action_tag(any && random.one_in(2));
                let place = (tag, n as i32 + 1, variable);
                if event[1] == INITIALISATION {
                    initial.push(place);
                } else {
                    others.push(place);
                }
            }
        }
        match self.acting {
            Acting::Any => {}
            Acting::None => others.clear(),
            Acting::Last => others.retain(|place| place.1 == draft.events.len() as i32),
        }
        random.shuffle(&mut others);
        let most = self.actions.min(Table::MOST_ACTIONS);
        others.truncate(most.saturating_sub(initial.len()));
        initial.extend(others);
        self.set_tags(&mut initial, random);
        initial
    }

    fn set_tags(&self, actions: &mut [Place], random: &mut Random) {
        let one = match self.action_tags {
            ActionTags::Any => return,
            ActionTags::AllButOneEqual | ActionTags::AllButOneSuchThat => {
                random.below(actions.len())
            }
            _ => 0,
        };
        for (n, action) in actions.iter_mut().enumerate() {
            action.0 = action_tag(match self.action_tags {
                ActionTags::Any | ActionTags::Equal => false,
                ActionTags::SuchThat => true,
                ActionTags::AllButOneEqual => n == one,
                ActionTags::AllButOneSuchThat => n != one,
                ActionTags::ByEvent => action.1 % 2 == 0,
                ActionTags::InTurn => n % 2 == 1,
            });
        }
    }

    /// Gives every formula one node, then hands out the others.
    fn grow_formulas(&self, draft: &mut Draft, places: &[Place], random: &mut Random) {
        let most_nodes = Table::MOST_NODES - self.spare_nodes;
        let left = self.nodes.min(most_nodes.saturating_sub(places.len()));
        let sorts: Vec<Sort> = places
            .iter()
            .map(|&(tag, _, identifier)| root_sort(draft, tag, identifier))
            .collect();
        let sizes = if self.dividing {
            dividing_sizes(&sorts, left, random)
        } else {
            any_sizes(&sorts, left, random)
        };
        for (place, &(tag, event, identifier)) in places.iter().enumerate() {
            let sight = sight(draft, tag, event, identifier);
            let (sort, size) = (sorts[place], sizes[place]);
            let division = random.pick(&[DIVIDE, MOD]);
            let mut grower = Grower::new(random, &sight);
            let tree = if self.dividing && size > 1 {
                grower.grow_dividing(division, sort, size)
            } else {
                grower.grow(sort, size)
            };
            draft.formulas.push(DraftFormula {
                tag,
                event,
                identifier,
                tree,
            });
        }
    }
}

/// The sizes of formulas that so many nodes are handed out to, by few or by many.
fn any_sizes(sorts: &[Sort], mut left: usize, random: &mut Random) -> Vec<usize> {
    let mut sizes = vec![1; sorts.len()];
    let most = random.pick(&[1, 4, 16, 512]);
    while left > 0 && !sizes.is_empty() {
        let some = random.between(1, most.min(left));
        let place = random.below(sizes.len());
        sizes[place] += some;
        left -= some;
    }
    sizes
}

/// The same, to each as many as a division takes, and what is left over to one of them.
fn dividing_sizes(sorts: &[Sort], mut left: usize, random: &mut Random) -> Vec<usize> {
    let mut sizes = vec![1; sorts.len()];
    let mut order: Vec<usize> = (0..sorts.len()).collect();
    random.shuffle(&mut order);
    let mut divides = None;
    for place in order {
        let more = least_dividing(sorts[place]) - 1;
        if more <= left {
            sizes[place] += more;
            left -= more;
            divides = Some(place);
        }
    }
    if let Some(place) = divides {
        sizes[place] += left;
    }
    sizes
}

fn action_tag(such_that: bool) -> i32 {
    if such_that {
        BECOMES_SUCH_THAT
    } else {
        BECOMES_EQUAL
    }
}

/// The numbers, from 1, of those that meet the condition.
pub fn numbers_of(list: &[[i32; 3]], meets: impl Fn(&[i32; 3]) -> bool) -> Vec<i32> {
    (1..=list.len() as i32)
        .filter(|&number| meets(&list[number as usize - 1]))
        .collect()
}

fn any_owner(draft: &Draft, kind: i32, random: &mut Random) -> i32 {
    let machine = match kind {
        ABSTRACT_PARAMETER => ABSTRACT,
        CONCRETE_PARAMETER => CONCRETE,
        _ => return 0,
    };
    let owns = |event: &[i32; 3]| event[0] == machine && event[1] != INITIALISATION;
    random.pick(&numbers_of(&draft.events, owns))
}

/// One witness for each that check 12 asks for.
fn witness_places(draft: &Draft) -> Vec<Place> {
    let mut places = Vec::new();
    for (n, event) in draft.events.iter().enumerate() {
        if event[0] != CONCRETE || is_new(event[1]) {
            continue;
        }
        let wanted = |one: &[i32; 3]| {
            one[0] == ABSTRACT_VARIABLE || (one[0] == ABSTRACT_PARAMETER && one[2] == event[2])
        };
        for identifier in numbers_of(&draft.identifiers, wanted) {
            places.push((WITNESS, n as i32 + 1, identifier));
        }
    }
    places
}

fn drop_abstract_parameter(draft: &mut Draft) {
    let found = draft
        .identifiers
        .iter()
        .position(|one| one[0] == ABSTRACT_PARAMETER);
    draft
        .identifiers
        .remove(found.expect("variables alone fit"));
}

pub fn sort_of_type(type_number: i32) -> Sort {
    if type_number == INTEGER {
        Sort::Integer
    } else {
        Sort::Boolean
    }
}

/// The sort of the root that a row names.
pub fn root_sort(draft: &Draft, tag: i32, identifier: i32) -> Sort {
    match tag {
        BECOMES_EQUAL => sort_of_type(draft.identifiers[identifier as usize - 1][1]),
        VARIANT => Sort::Integer,
        _ => Sort::Predicate,
    }
}

/// What the formula in this place may mention.
pub fn sight(draft: &Draft, tag: i32, event: i32, identifier: i32) -> Vec<Leaf> {
    let mut leaves = Vec::new();
    for (n, &[kind, type_number, owner]) in draft.identifiers.iter().enumerate() {
        let number = n as i32 + 1;
        let mut add = |operator| {
            leaves.push(Leaf {
                operator,
                identifier: number,
                sort: sort_of_type(type_number),
            });
        };
        if sees_now(draft, (tag, event, identifier), (number, kind, owner)) {
            add(IDENTIFIER);
        }
        if sees_after(draft, (tag, event, identifier), number) {
            add(AFTER);
        }
    }
    leaves
}

fn sees_now(draft: &Draft, place: Place, (number, kind, owner): Place) -> bool {
    let (tag, event, target) = place;
    if kind == CONSTANT {
        return true;
    }
    if (AXIOM..=CONCRETE_INVARIANT).contains(&tag) || tag == VARIANT {
        let seen: &[i32] = match tag {
            AXIOM => &[],
            ABSTRACT_INVARIANT => &[ABSTRACT],
            CONCRETE_INVARIANT => &[ABSTRACT, CONCRETE],
            _ => &[CONCRETE],
        };
        return seen.iter().any(|&machine| is_variable_of(machine, kind));
    }
    let [machine, class, _] = draft.events[event as usize - 1];
    let present = class != INITIALISATION && is_variable_of(machine, kind);
    let witnessed = tag == WITNESS && number == target && kind == ABSTRACT_PARAMETER;
    present || owner == event || witnessed
}

fn sees_after(draft: &Draft, (tag, _, target): Place, number: i32) -> bool {
    let kind = |number: i32| draft.identifiers[number as usize - 1][0];
    match tag {
        BECOMES_SUCH_THAT => number == target,
        WITNESS if kind(target) == ABSTRACT_VARIABLE => {
            number == target || is_variable_of(CONCRETE, kind(number))
        }
        _ => false,
    }
}

pub const EXTREMES: usize = 15;

/// Tables at the limits. Numbers 1 and 2 have the longest list without shared variables and the longest sequent that were
/// found, number 11 the longest list: of tables with all axioms, whose nodes add hypotheses. Number 3 has the longest spelled
/// entry that can be, number 13 the longest without mod.
pub fn extreme(number: usize, random: &mut Random) -> Draft {
    let full = Plan {
        axioms: 16,
        abstract_invariants: 16,
        concrete_invariants: 16,
        guards: 64,
        actions: 128,
        nodes: 512,
        ..Plan::default()
    };
    let plan = match number {
        0 => everything(full),
        1 => return most_sequents(full, 0, random),
        2 => longest_sequent(full),
        3 => return deep(MOD, &[Side::Left, Side::Right], 255, random),
        4 => sixty_four_identifiers(random),
        5 => one_formula(random),
        6 => many_witnesses(full, random),
        7 => many_events(random),
        8 => anticipated_everything(full, random),
        9 => longest_anticipated(full, random),
        10 => shared_everything(full, random),
        11 => return most_sequents(full, 60, random),
        12 => only_shared(full, random),
        13 => return deep(DIVIDE, &[Side::Right], 255, random),
        _ => near_limits(full, random),
    };
    plan.draft(random)
}

/// Every limit is reached at once.
fn everything(full: Plan) -> Plan {
    Plan {
        constants: 6,
        abstract_variables: 8,
        concrete_variables: 30,
        concrete_parameters: 20,
        abstract_events: 5,
        ordinary: 15,
        convergent: 10,
        dividing: true,
        ..full
    }
}

/// The same with anticipated events, beside convergent ones or alone.
fn anticipated_everything(full: Plan, random: &mut Random) -> Plan {
    let mut plan = everything(full);
    plan.convergent = random.pick(&[0, 1, 5, 9]);
    plan.anticipated = 10 - plan.convergent;
    plan.variant = true;
    plan
}

/// The same with shared variables, beside concrete ones or in their place.
fn shared_everything(full: Plan, random: &mut Random) -> Plan {
    let mut plan = anticipated_everything(full, random);
    plan.share_concrete(random.pick(&[1, 10, 29, 30]));
    plan
}

/// So many quarters of a table at every limit.
pub fn growing(quarters: usize) -> Plan {
    let part = |whole: usize| whole * quarters / 4;
    Plan {
        constants: part(6),
        abstract_variables: part(8),
        concrete_variables: part(30),
        concrete_parameters: part(20),
        abstract_events: part(5),
        ordinary: part(15),
        convergent: part(10),
        axioms: part(16),
        abstract_invariants: part(16),
        concrete_invariants: part(16),
        guards: part(64),
        actions: part(128),
        nodes: part(512),
        spare_nodes: 512 - part(512),
        dividing: true,
        ..Plan::default()
    }
}

/// So many of the 60 concrete variables are shared: these have SIM at every concrete event, and no witnesses.
fn most_sequents(full: Plan, shared: usize, random: &mut Random) -> Draft {
    let mut plan = Plan {
        abstract_variables: 4,
        concrete_variables: 60,
        abstract_events: 1,
        ordinary: 29,
        guards_at: 2,
        action_tags: ActionTags::SuchThat,
        nodes: 0,
        ..full
    };
    plan.share_concrete(shared);
    let mut draft = plan.draft(random);
    spend_nodes(&mut draft);
    draft
}

/// All formulas have one node: what is left of 512 makes WD of the abstract invariants, then of the abstract event's guards,
/// and INV of these invariants at that event, event 2.
fn spend_nodes(draft: &mut Draft) {
    let variable = numbers_of(&draft.identifiers, |one| one[0] == ABSTRACT_VARIABLE)[0];
    draft.identifiers[variable as usize - 1][1] = INTEGER;
    let is_set = |one: &DraftFormula| one.event == 2 && one.identifier == variable;
    let mut actions = draft.formulas.iter_mut().filter(|one| is_action(one.tag));
    if !actions.any(|one| is_set(one)) {
        let mut actions = draft.formulas.iter_mut().filter(|one| is_action(one.tag));
        // Events 1 and 3 are the initialisations.
        let other = actions.find(|one| one.event != 1 && one.event != 3);
        let other = other.expect("fewer actions are initial than there may be");
        (other.event, other.identifier) = (2, variable);
    }
    let mut left = Table::MOST_NODES - draft.nodes();
    for tag in [ABSTRACT_INVARIANT, GUARD] {
        for formula in draft.formulas.iter_mut().filter(|one| one.tag == tag) {
            let leaf = || Tree::leaf(IDENTIFIER, variable);
            let tree = Tree::two(EQUAL, Tree::two(DIVIDE, leaf(), leaf()), leaf());
            if tree.nodes() <= left + 1 {
                left = left + 1 - tree.nodes();
                formula.tree = tree;
            }
        }
    }
}

/// Base 48, guards 64, and one hypothesis for each of 64 variables.
fn longest_sequent(full: Plan) -> Plan {
    Plan {
        abstract_variables: 32,
        concrete_variables: 32,
        abstract_events: 1,
        ordinary: 1,
        guards_at: 4,
        ..full
    }
}

/// The same length at an anticipated event, whose hypotheses end with the abstract variables.
fn longest_anticipated(full: Plan, random: &mut Random) -> Plan {
    Plan {
        abstract_variables: 32,
        concrete_variables: 32,
        anticipated: 1,
        variant: random.one_in(2),
        guards_at: 3,
        ..full
    }
}

/// 64 shared variables, whose actions are all initial, or one fewer; any event of the concrete machine has all guards.
fn only_shared(full: Plan, random: &mut Random) -> Plan {
    let mut plan = Plan {
        shared_variables: random.pick(&[63, 64, 64]),
        abstract_events: 1,
        ordinary: 1,
        ..full
    };
    plan.share_new_events(random.pick(&[1, 2, 4]), random);
    plan.guards_at = random.between(4, 4 + plan.new_events()) as i32;
    plan
}

/// The operand that has all other levels below it.
#[derive(Clone, Copy, Debug)]
pub enum Side {
    Left,
    Right,
}

/// ÷ or mod over so many others, deep on any of these sides at each level, as the one initial action.
pub fn deep(division: i32, sides: &[Side], depth: usize, random: &mut Random) -> Draft {
    let mut tree = Tree::one(NEGATION, Tree::leaf(LITERAL, 7));
    for _ in 0..depth {
        let leaf = Tree::leaf(LITERAL, random.below(9) as i32);
        tree = match random.pick(sides) {
            Side::Left => Tree::two(division, tree, leaf),
            Side::Right => Tree::two(division, leaf, tree),
        };
    }
    Draft {
        identifiers: vec![[CONCRETE_VARIABLE, INTEGER, 0]],
        events: vec![[ABSTRACT, INITIALISATION, 0], [CONCRETE, INITIALISATION, 0]],
        formulas: vec![DraftFormula {
            tag: BECOMES_EQUAL,
            event: 2,
            identifier: 1,
            tree,
        }],
    }
}

fn sixty_four_identifiers(random: &mut Random) -> Plan {
    let mut plan = Plan::any(random, 6);
    plan.constants = Table::MOST_IDENTIFIERS - plan.other_identifiers();
    plan
}

/// 512 nodes in one formula, and nothing else.
fn one_formula(random: &mut Random) -> Plan {
    let mut plan = Plan {
        constants: random.below(3),
        nodes: 512,
        ..Plan::default()
    };
    match random.below(5) {
        0 => plan.axioms = 1,
        1 => plan.abstract_invariants = 1,
        2 => plan.concrete_invariants = 1,
        3 => plan.convergent = 1,
        _ => (plan.anticipated, plan.variant) = (1, true),
    }
    plan
}

fn many_witnesses(full: Plan, random: &mut Random) -> Plan {
    let (abstract_variables, ordinary) = random.pick(&[(32, 3), (16, 7), (8, 15), (64, 1)]);
    let left = Table::MOST_IDENTIFIERS - abstract_variables;
    Plan {
        abstract_variables,
        shared_variables: random.pick(&[0, 0, 1, 16]).min(left),
        ordinary,
        abstract_events: 1 + random.below(3),
        anticipated: random.below(3),
        variant: random.one_in(2),
        ..full
    }
}

fn many_events(random: &mut Random) -> Plan {
    let abstract_events = random.between(1, 29);
    let ordinary = random.below(31 - abstract_events);
    let mut plan = Plan {
        abstract_events,
        ordinary,
        abstract_variables: random.below(3),
        concrete_variables: random.below(3),
        shared_variables: random.below(3),
        concrete_invariants: random.below(4),
        ..Plan::default()
    };
    plan.share_new_events(30 - abstract_events - ordinary, random);
    plan.within_limits()
}

/// Every part at its limit or a little below.
fn near_limits(full: Plan, random: &mut Random) -> Plan {
    let mut near = |limit: usize| limit - random.below(3);
    let new_events = near(8);
    let mut plan = Plan {
        constants: near(6),
        abstract_variables: near(6),
        concrete_variables: near(24),
        abstract_parameters: near(4),
        concrete_parameters: near(24),
        abstract_events: near(6),
        ordinary: near(16),
        axioms: near(16),
        abstract_invariants: near(16),
        concrete_invariants: near(16),
        guards: near(64),
        actions: near(128),
        spare_nodes: 512 - near(512),
        ..full
    };
    plan.share_new_events(new_events, random);
    if random.one_in(2) {
        plan.share_concrete(random.between(1, plan.concrete_variables));
    }
    plan
}
