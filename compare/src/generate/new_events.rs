//! Tables one step from the rules for anticipated events, on either side of them.

use super::draft::{Draft, DraftFormula};
use super::plan::numbers_of;
use super::random::Random;
use super::tree::Tree;
use crate::formula::{LITERAL, TOP};
use crate::table::*;

/// One change near refusal 5, 6 or 7: a class or refined event, an owner, or the event of a row.
pub fn near_anticipated(refusal: i32, draft: &mut Draft, random: &mut Random) {
    let event = any_anticipated(draft, random);
    match refusal {
        5 => change_class(draft, event, random),
        6 => change_owner(draft, event, random),
        _ => change_row(draft, event, random),
    }
}

/// An anticipated event, put behind the others if there is none: it asks for nothing.
fn any_anticipated(draft: &mut Draft, random: &mut Random) -> i32 {
    let found = numbers_of(&draft.events, |event| event[1] == ANTICIPATED);
    random.maybe(&found).unwrap_or_else(|| {
        draft.events.push([CONCRETE, ANTICIPATED, 0]);
        draft.events.len() as i32
    })
}

/// The numbers of a machine's events of one class.
pub fn of_class(draft: &Draft, machine: i32, class: i32) -> Vec<i32> {
    numbers_of(&draft.events, |event| event[..2] == [machine, class])
}

/// Class 3 at an abstract event or with a refined one, class 4, or another class that is near.
fn change_class(draft: &mut Draft, anticipated: i32, random: &mut Random) {
    let ordinary = of_class(draft, ABSTRACT, ORDINARY);
    let refining = of_class(draft, CONCRETE, ORDINARY);
    let own = anticipated as usize - 1;
    match random.below(7) {
        0 => {
            let number = random.maybe(&ordinary).unwrap_or(1);
            draft.events[number as usize - 1][1] = ANTICIPATED;
        }
        1 => draft.events[own][2] = random.maybe(&ordinary).unwrap_or(1),
        2 => draft.events[own][2] = random.pick(&[1, anticipated, -1, 33]),
        3 => draft.events[own][1] = random.pick(&[4, 4, -3, i32::MAX]),
        4 => draft.events[own][1] = CONVERGENT,
        5 => {
            // An ordinary event keeps what it refines, or only its witnesses.
            if let Some(number) = random.maybe(&refining) {
                let refined = draft.events[number as usize - 1][2];
                let refined = random.pick(&[refined, 0]);
                draft.events[number as usize - 1] = [CONCRETE, ANTICIPATED, refined];
            }
        }
        _ => {
            let initial = of_class(draft, CONCRETE, INITIALISATION);
            if let Some(number) = random.maybe(&initial) {
                draft.events[number as usize - 1][1] = ANTICIPATED;
            }
        }
    }
}

/// The event owns a parameter more, or one of another event; abstract ones can't be its own.
fn change_owner(draft: &mut Draft, anticipated: i32, random: &mut Random) {
    let kind = random.pick(&[ABSTRACT_PARAMETER, CONCRETE_PARAMETER]);
    let found = numbers_of(&draft.identifiers, |one| one[0] == kind);
    match random.maybe(&found) {
        Some(number) if random.one_in(2) => draft.identifiers[number as usize - 1][2] = anticipated,
        _ => draft.identifiers.push([kind, INTEGER, anticipated]),
    }
}

/// A witness, guard or action at the event, one that moves there or one more.
fn change_row(draft: &mut Draft, anticipated: i32, random: &mut Random) {
    let (tag, leaf) = random.pick(&[
        (WITNESS, TOP),
        (WITNESS, TOP),
        (GUARD, TOP),
        (BECOMES_EQUAL, LITERAL),
        (BECOMES_SUCH_THAT, TOP),
    ]);
    let found: Vec<usize> = (0..draft.formulas.len())
        .filter(|&place| draft.formulas[place].tag == tag)
        .collect();
    if let Some(place) = random.maybe(&found).filter(|_| random.one_in(2)) {
        draft.formulas[place].event = anticipated;
        return;
    }
    let fits = |kind: i32| is_variable(kind) || kind == ABSTRACT_PARAMETER;
    let targets = numbers_of(&draft.identifiers, |one| fits(one[0]));
    let identifier = match tag {
        GUARD => 0,
        _ => random.maybe(&targets).unwrap_or(1),
    };
    draft.formulas.push(DraftFormula {
        tag,
        event: anticipated,
        identifier,
        tree: Tree::leaf(leaf, 0),
    });
}

/// Makes all convergent and anticipated events ordinary ones, with the witnesses that these need.
/// Gives whether there was an event to refine.
pub fn make_ordinary(draft: &mut Draft, random: &mut Random) -> bool {
    let ordinary = of_class(draft, ABSTRACT, ORDINARY);
    let Some(refined) = random.maybe(&ordinary) else {
        return false;
    };
    let wanted = numbers_of(&draft.identifiers, |&[kind, _, owner]| {
        kind == ABSTRACT_VARIABLE || (kind == ABSTRACT_PARAMETER && owner == refined)
    });
    for event in numbers_of(&draft.events, |event| is_new(event[1])) {
        draft.events[event as usize - 1] = [CONCRETE, ORDINARY, refined];
        let witnesses = wanted.iter().map(|&identifier| DraftFormula {
            tag: WITNESS,
            event,
            identifier,
            tree: Tree::leaf(TOP, 0),
        });
        draft.formulas.extend(witnesses);
    }
    true
}
