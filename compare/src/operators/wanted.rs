//! What the tables of operators must show, all of them together.

use super::coverage::{shown, Case, Holds, Named};
use super::{operator_numbers, shape_of, Shape, SHAPES, SORTS};
use crate::checks::{REFERENCE, SIGHT, SORT};
use crate::formula::Sort::{Boolean, Integer, Predicate};
use crate::formula::*;
use crate::table::*;
use std::collections::BTreeSet;

/// What the tables must show and these don't.
pub fn missing(tables: &[Vec<u8>]) -> Vec<Case> {
    wanted().difference(&shown(tables)).cloned().collect()
}

/// What they must show, by the paper's list of operators.
pub fn wanted() -> BTreeSet<Case> {
    let mut cases = BTreeSet::new();
    for operator in operator_numbers() {
        if shape_of(operator).is_none() {
            cases.insert(Case::Unknown { operator });
        }
    }
    cases.extend((CONSTANT..=SHARED_VARIABLE).flat_map(wanted_mentions));
    for shape in &SHAPES {
        let Shape {
            operator, takes, ..
        } = *shape;
        let sorts = takes.to_vec();
        cases.insert(Case::Takes { operator, sorts });
        cases.extend(wanted_misfits(operator, takes.len()));
        cases.extend(ROOTS.map(|row| wanted_root(shape, row)));
        cases.extend(wanted_columns(shape));
        cases.extend(wanted_forms(shape));
        cases.extend(ROOTS.into_iter().flat_map(|row| wanted_wd(shape, row)));
        cases.extend(SHAPES.iter().flat_map(|above| wanted_below(shape, above)));
        cases.extend(wanted_beside(shape));
        cases.insert(Case::Unused { operator });
        for side in 0..takes.len() {
            cases.insert(Case::Divides { operator });
            cases.insert(Case::Twice { operator, side });
            cases.extend([IDENTIFIER, AFTER].map(|mention| Case::Hidden {
                operator,
                side,
                mention,
            }));
        }
    }
    cases
}

const ROOTS: [Named; 9] = [
    (AXIOM, Predicate),
    (ABSTRACT_INVARIANT, Predicate),
    (CONCRETE_INVARIANT, Predicate),
    (GUARD, Predicate),
    (BECOMES_EQUAL, Integer),
    (BECOMES_EQUAL, Boolean),
    (BECOMES_SUCH_THAT, Predicate),
    (WITNESS, Predicate),
    (VARIANT, Integer),
];

/// Constants may be mentioned everywhere, other identifiers in some places; only variables have after values.
fn wanted_mentions(kind: i32) -> Vec<Case> {
    let present: &[i32] = if kind == CONSTANT { &[0] } else { &[0, SIGHT] };
    let after: &[i32] = if is_variable(kind) {
        &[0, SIGHT]
    } else {
        &[REFERENCE]
    };
    let mut cases = Vec::new();
    for (operator, replies) in [(IDENTIFIER, present), (AFTER, after)] {
        for type_number in [INTEGER, BOOLEAN] {
            cases.extend(replies.iter().map(|&reply| Case::Mention {
                operator,
                kind,
                type_number,
                reply,
            }));
        }
    }
    cases
}

/// All sorts of so many operands that the operator doesn't take.
fn wanted_misfits(operator: i32, operands: usize) -> Vec<Case> {
    let mut lists: Vec<Vec<Sort>> = vec![vec![]];
    for _ in 0..operands {
        let longer = |list: Vec<Sort>| SORTS.map(|sort| [&list[..], &[sort]].concat());
        lists = lists.into_iter().flat_map(longer).collect();
    }
    let taken = |list: &Vec<Sort>| {
        let mut shapes = SHAPES.iter().filter(|shape| shape.operator == operator);
        shapes.any(|shape| shape.takes == &list[..])
    };
    lists.retain(|list| !taken(list));
    let lists = lists.into_iter();
    lists
        .map(|sorts| Case::Misfit { operator, sorts })
        .collect()
}

/// Another sort than the row takes is refused by 8, an after value where none may be mentioned by 10.
fn wanted_root(shape: &Shape, row: Named) -> Case {
    let (tag, takes) = row;
    let sees_after = tag == BECOMES_SUCH_THAT || tag == WITNESS;
    let reply = match shape.operator {
        _ if shape.makes != takes => SORT,
        AFTER if !sees_after => SIGHT,
        _ => 0,
    };
    Case::Root {
        operator: shape.operator,
        makes: shape.makes,
        row,
        reply,
    }
}

fn wanted_columns(shape: &Shape) -> Vec<Case> {
    use Holds::*;
    let mut cases = Vec::new();
    for column in 0..2 {
        let holds: &[Holds] = match shape.operator {
            LITERAL if column == 0 => &[],
            IDENTIFIER if column == 0 => &[Zero, Negative, Nothing],
            AFTER if column == 0 => &[Zero, Negative, Nothing, NoVariable],
            _ if column < shape.takes.len() => &[Zero, Negative, Itself, LaterNode, Nothing],
            _ => &[Something],
        };
        cases.extend(holds.iter().map(|&holds| Case::Column {
            operator: shape.operator,
            column,
            holds,
        }));
    }
    cases
}

/// An invariant has no after values; the variant is an integer, and nothing makes an integer of the other sorts.
fn wanted_forms(shape: &Shape) -> Vec<Case> {
    let forms: &[i32] = match (shape.operator, shape.makes) {
        (AFTER, _) => &[1, 3, 4, 5, 6],
        (_, Integer) => &[1, 2, 3, 4, 5, 6, 7, 8, 9],
        _ => &[1, 2, 3, 4, 5, 6],
    };
    let operator = shape.operator;
    let forms = forms.iter();
    forms
        .map(|&form| Case::Spelled { operator, form })
        .collect()
}

/// The operator wherever it can stand: beside ÷ or mod with WD, and, but for these two, without them and without WD.
fn wanted_wd(shape: &Shape, row: Named) -> Vec<Case> {
    let operator = shape.operator;
    let (tag, takes) = row;
    let sees_after = tag == BECOMES_SUCH_THAT || tag == WITNESS;
    let stands = takes != Integer || shape.makes == Integer;
    if !stands || (operator == AFTER && !sees_after) {
        return vec![];
    }
    match operator {
        DIVIDE | MOD => vec![Case::Defined { operator, row }],
        _ => vec![
            Case::Defined { operator, row },
            Case::LeftOut { operator, row },
        ],
    }
}

/// The operator on each side of the one above that takes what it makes: in every row where that can stand, but leaves only
/// in a witness, which may mention all.
fn wanted_below(shape: &Shape, above: &Shape) -> Vec<Case> {
    let mut cases = Vec::new();
    for (side, &sort) in above.takes.iter().enumerate() {
        for row in ROOTS {
            let (tag, takes) = row;
            let stands = takes != Integer || above.makes == Integer;
            let leaf = shape.takes.is_empty();
            if sort == shape.makes && stands && (!leaf || tag == WITNESS) {
                cases.push(Case::Below {
                    operator: shape.operator,
                    side,
                    above: above.operator,
                    row,
                });
            }
        }
    }
    cases
}

/// Every operator that makes what the left of this one takes, beside every one that makes what its right takes.
fn wanted_beside(above: &Shape) -> Vec<Case> {
    let &[left, right] = above.takes else {
        return vec![];
    };
    let making = |sort: Sort| SHAPES.iter().filter(move |shape| shape.makes == sort);
    let beside = |left: &'static Shape| {
        making(right).map(|right| Case::Beside {
            left: left.operator,
            right: right.operator,
            above: above.operator,
        })
    };
    making(left).flat_map(beside).collect()
}
