//! Tables one step from the rules for shared variables, on either side of them.

use super::damage::is_action;
use super::draft::{Draft, DraftFormula};
use super::near::{formulas, second_target};
use super::new_events::of_class;
use super::plan::{numbers_of, root_sort, sort_of_type};
use super::random::Random;
use super::tree::Tree;
use crate::formula::{Sort, AFTER, AND, BOOL, EQUAL, IDENTIFIER, LITERAL, PLUS, TOP, TRUE};
use crate::table::*;

/// The refusals that they come near to, those with most ways to it more than once.
pub const NEAR_SHARED: [i32; 12] = [6, 7, 10, 10, 10, 10, 10, 10, 10, 10, 11, 12];

/// One change near refusal 6, 7, 10, 11 or 12.
pub fn near_shared(refusal: i32, draft: &mut Draft, random: &mut Random) {
    let variable = any_shared(draft, random);
    match refusal {
        6 => change_identifier(draft, variable, random),
        7 => name_in_row(draft, variable, random),
        10 => mention(draft, variable, random),
        11 => second_target(draft, random, |target| target == variable),
        _ => leave_unset(draft, variable, random),
    }
}

/// A shared variable, put behind the other identifiers if there is none; both initialisations set it.
fn any_shared(draft: &mut Draft, random: &mut Random) -> i32 {
    let found = numbers_of(&draft.identifiers, |one| one[0] == SHARED_VARIABLE);
    random.maybe(&found).unwrap_or_else(|| {
        let (type_number, leaf) = random.pick(&[(INTEGER, LITERAL), (BOOLEAN, TRUE)]);
        draft.identifiers.push([SHARED_VARIABLE, type_number, 0]);
        let variable = draft.identifiers.len() as i32;
        for machine in [ABSTRACT, CONCRETE] {
            let (tag, leaf) = random.pick(&[(BECOMES_EQUAL, leaf), (BECOMES_SUCH_THAT, TOP)]);
            for event in of_class(draft, machine, INITIALISATION) {
                add_leaf(draft, tag, event, variable, leaf);
            }
        }
        variable
    })
}

/// A formula of one node more.
fn add_leaf(draft: &mut Draft, tag: i32, event: i32, identifier: i32, leaf: i32) {
    draft.formulas.push(DraftFormula {
        tag,
        event,
        identifier,
        tree: Tree::leaf(leaf, 0),
    });
}

/// It has an owner, an unknown kind or type, or the kind of one machine's variables.
fn change_identifier(draft: &mut Draft, variable: i32, random: &mut Random) {
    let event = random.between(1, draft.events.len() + 1) as i32;
    let [kind, type_number, owner] = &mut draft.identifiers[variable as usize - 1];
    match random.below(7) {
        0 => *owner = event,
        1 => *owner = random.pick(&[-1, 6, 33, i32::MIN]),
        2 => *kind = 7,
        3 => *kind = random.pick(&[7, 8, -6, i32::MAX]),
        4 => *kind = 0,
        5 => *type_number = random.pick(&[0, 3]),
        _ => *kind = random.pick(&[ABSTRACT_VARIABLE, CONCRETE_VARIABLE]),
    }
}

/// A witness for it, one more or that of another target; or another target's action becomes one for it.
fn name_in_row(draft: &mut Draft, variable: i32, random: &mut Random) {
    let tags: &[i32] = match random.below(4) {
        0 => &[BECOMES_EQUAL, BECOMES_SUCH_THAT],
        _ => &[WITNESS],
    };
    let found = formulas(draft, |one| tags.contains(&one.tag));
    match random.maybe(&found) {
        Some(place) if random.one_in(2) => draft.formulas[place].identifier = variable,
        _ => {
            let concrete = numbers_of(&draft.events, |event| event[0] == CONCRETE);
            let event = random.maybe(&concrete).unwrap_or(1);
            let tag = random.pick(&[WITNESS, WITNESS, BECOMES_SUCH_THAT]);
            add_leaf(draft, tag, event, variable, TOP);
        }
    }
}

/// The tags of formulas, those of several sorts and those that many tables lack more than once.
const MENTIONING: [i32; 18] = [
    AXIOM,
    ABSTRACT_INVARIANT,
    CONCRETE_INVARIANT,
    VARIANT,
    VARIANT,
    VARIANT,
    GUARD,
    GUARD,
    BECOMES_EQUAL,
    BECOMES_EQUAL,
    BECOMES_EQUAL,
    BECOMES_EQUAL,
    BECOMES_EQUAL,
    BECOMES_SUCH_THAT,
    BECOMES_SUCH_THAT,
    WITNESS,
    WITNESS,
    WITNESS,
];

/// A present or after value of it in a formula of any sort, whether it may stand there or not.
fn mention(draft: &mut Draft, variable: i32, random: &mut Random) {
    let tag = random.pick(&MENTIONING);
    let Some(place) = any_formula(draft, tag, random) else {
        return;
    };
    let leaf = Tree::leaf(random.pick(&[AFTER, IDENTIFIER]), variable);
    let own = sort_of_type(draft.identifiers[variable as usize - 1][1]);
    let DraftFormula {
        tag, identifier, ..
    } = draft.formulas[place];
    let sort = root_sort(draft, tag, identifier);
    let tree = &mut draft.formulas[place].tree;
    *tree = with_leaf(tree.clone(), sort, leaf, own);
}

/// A formula of this tag, at an initialisation or not; of no event one more if there is none, else any other.
fn any_formula(draft: &mut Draft, tag: i32, random: &mut Random) -> Option<usize> {
    let found = formulas(draft, |one| one.tag == tag);
    if found.is_empty() && tag <= CONCRETE_INVARIANT {
        add_leaf(draft, tag, 0, 0, TOP);
        return Some(draft.formulas.len() - 1);
    }
    let wanted = random.one_in(3);
    let initial = [ABSTRACT, CONCRETE].map(|machine| of_class(draft, machine, INITIALISATION));
    let is_initial = |place: usize| initial.concat().contains(&draft.formulas[place].event);
    let (some, others): (Vec<usize>, Vec<usize>) = found
        .into_iter()
        .partition(|&place| is_initial(place) == wanted);
    let any = formulas(draft, |_| true);
    [some, others, any]
        .iter()
        .find_map(|places| random.maybe(places))
}

/// The tree, or one of its sort, with the leaf in it. No integer has a boolean part.
fn with_leaf(tree: Tree, sort: Sort, leaf: Tree, own: Sort) -> Tree {
    let equation = Tree::two(EQUAL, leaf.clone(), leaf.clone());
    match sort {
        Sort::Predicate => Tree::two(AND, tree, equation),
        Sort::Boolean => Tree::one(BOOL, equation),
        Sort::Integer if own == Sort::Integer => Tree::two(PLUS, tree, leaf),
        Sort::Integer => tree,
    }
}

/// Its initial action goes in one machine or in both, or moves to another event of the machine.
fn leave_unset(draft: &mut Draft, variable: i32, random: &mut Random) {
    let machines = random.pick(&[&[ABSTRACT][..], &[CONCRETE], &[ABSTRACT, CONCRETE]]);
    for &machine in machines {
        let initial = of_class(draft, machine, INITIALISATION);
        let sets = |one: &DraftFormula| {
            is_action(one.tag) && one.identifier == variable && initial.contains(&one.event)
        };
        let others = numbers_of(&draft.events, |event| {
            event[0] == machine && event[1] != INITIALISATION
        });
        let other = random.maybe(&others).filter(|_| random.one_in(4));
        for place in formulas(draft, sets).into_iter().rev() {
            match other {
                Some(event) => draft.formulas[place].event = event,
                None => drop(draft.formulas.remove(place)),
            }
        }
    }
}
