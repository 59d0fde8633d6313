//! Damaged tables: aimed at one refusal, or damaged anyhow.

use super::draft::{Draft, DraftFormula};
use super::near::{near, NEAR};
use super::plan::{numbers_of, root_sort, sight, sort_of_type};
use super::random::Random;
use super::tree::{Grower, Tree};
use crate::formula::*;
use crate::rows::{bytes_of, Row, ROW_BYTES};
use crate::table::*;

/// Numbers that are often just wrong.
const ODD: [i32; 10] = [0, 1, 2, 3, -1, 7, 64, 513, i32::MAX, i32::MIN];

/// A table that is likely to have this refusal, from 1 to 12.
pub fn aimed(refusal: i32, draft: &Draft, random: &mut Random) -> Vec<u8> {
    if NEAR.contains(&refusal) && random.one_in(2) {
        return bytes_of(&near(refusal, draft, random));
    }
    let mut draft = draft.clone();
    match refusal {
        8 if !random.one_in(4) => wrong_sort(&mut draft, random),
        10 => wrong_sight(&mut draft, random),
        11 => second_target(&mut draft, random),
        12 => leave_out(&mut draft, random),
        _ => {}
    }
    let mut rows = draft.rows(random);
    match refusal {
        3 => damage_tag(&mut rows, random),
        4 => overfill(&mut rows, random),
        5 => damage_event(&mut rows, random),
        6 => damage_identifier(&mut rows, random),
        7 => damage_reference(&mut rows, random),
        8 => flip_type(&mut rows, random),
        9 => damage_use(&mut rows, random),
        _ => {}
    }
    if refusal == 12 && random.one_in(10) {
        rows.retain(|row| row.tag == 10 && row.a == CONSTANT);
    }
    let mut bytes = bytes_of(&rows);
    match refusal {
        1 => damage_frame(&mut bytes, random),
        2 => damage_column(&mut bytes, random),
        _ => {}
    }
    bytes
}

/// One to three damages of any sort, on fields, rows and bytes.
pub fn wild(draft: &Draft, random: &mut Random) -> Vec<u8> {
    if random.one_in(12) {
        return bytes_of(&noise(random));
    }
    let mut rows = draft.rows(random);
    for _ in 0..random.between(1, 3) {
        wild_rows(&mut rows, random);
    }
    let mut bytes = bytes_of(&rows);
    match random.below(12) {
        0 => damage_frame(&mut bytes, random),
        1 => damage_column(&mut bytes, random),
        2 => bytes.truncate(random.below(bytes.len() / ROW_BYTES + 1) * ROW_BYTES),
        3 => {
            let place = random.below(bytes.len());
            let byte = random.pick(b" 0123456789-+\n\t\0\xff");
            if let Some(found) = bytes.get_mut(place) {
                *found = byte;
            }
        }
        _ => {}
    }
    bytes
}

/// Rows with known tags in order and small numbers that fit nothing on purpose.
fn noise(random: &mut Random) -> Vec<Row> {
    let tags = [10, 20, 20, 30, 31, 32, 40, 40, 50, 51, 52, 60, 70];
    let mut rows = Vec::new();
    for _ in 0..random.below(12) {
        let mut row = Row::new(random.pick(&tags), 0, 0, 0);
        let [mut a, mut b, mut c] = [0; 3].map(|_: i32| random.below(4) as i32);
        match row.tag {
            20 => a = random.pick(&[1, 2, 3, 4, 6, 10, 20, 30, 32, 33]),
            30..=32 | 70 => (b, c) = (0, 0),
            50 => c = 0,
            _ => {}
        }
        (row.a, row.b, row.c) = (a, b, c);
        rows.push(row);
    }
    rows.sort_by_key(|row| row.tag);
    rows
}

fn wild_rows(rows: &mut Vec<Row>, random: &mut Random) {
    let (one, other) = (random.below(rows.len()), random.below(rows.len()));
    if rows.is_empty() {
        return;
    }
    match random.below(14) {
        0 => drop(rows.remove(one)),
        1 => rows.insert(one, rows[one]),
        2 => rows.insert(other, rows[one]),
        3 => rows.swap(one, other),
        4 => {
            let row = rows.remove(one);
            rows.insert(other.min(rows.len()), row);
        }
        5 => swap_in_tag(rows, one, random),
        6 => rows[one].tag = random.pick(&[10, 20, 30, 31, 32, 40, 50, 51, 52, 60, 70, 33, -4]),
        7 => damage_event(rows, random),
        8 => damage_identifier(rows, random),
        9 => damage_reference(rows, random),
        10 => flip_type(rows, random),
        11 => damage_use(rows, random),
        _ => change_field(rows, one, random),
    }
}

/// Changes the order of two rows with one tag.
fn swap_in_tag(rows: &mut [Row], one: usize, random: &mut Random) {
    let same = places(rows, |row| row.tag == rows[one].tag);
    rows.swap(one, random.pick(&same));
}

fn change_field(rows: &mut [Row], place: usize, random: &mut Random) {
    let row = &mut rows[place];
    let field = match random.below(3) {
        0 => &mut row.a,
        1 => &mut row.b,
        _ => &mut row.c,
    };
    *field = match random.below(4) {
        0 => random.pick(&ODD),
        1 => field.wrapping_add(1),
        2 => field.wrapping_sub(1),
        _ => random.below(70) as i32,
    };
}

/// The places of the rows that meet the condition.
pub fn places(rows: &[Row], meets: impl Fn(&Row) -> bool) -> Vec<usize> {
    (0..rows.len())
        .filter(|&place| meets(&rows[place]))
        .collect()
}

/// Refusal 1: a torn row, a row too many bytes long, or too many rows.
fn damage_frame(bytes: &mut Vec<u8>, random: &mut Random) {
    let size = bytes.len();
    match random.below(5) {
        0 => bytes.truncate(size.saturating_sub(random.between(1, 37))),
        1 => bytes.extend(vec![b' '; random.between(1, 37)]),
        2 => drop(bytes.pop()),
        3 => {
            bytes.resize(65_550, b' ');
        }
        _ => {
            let rows = 1725 + random.below(3);
            let row = bytes_of(&[Row::new(20, 30, 0, 0)]);
            bytes.extend(row.repeat(rows.saturating_sub(size / ROW_BYTES)));
        }
    }
}

/// Refusal 2: one row that isn't in the row form.
fn damage_column(bytes: &mut [u8], random: &mut Random) {
    if bytes.is_empty() {
        return;
    }
    let start = random.below(bytes.len() / ROW_BYTES) * ROW_BYTES;
    let row = &mut bytes[start..start + ROW_BYTES];
    let number = 4 + 11 * random.below(3);
    let texts: [&[u8]; 10] = [
        b"           ",
        b"         01",
        b"         -0",
        b"         +1",
        b"1          ",
        b"        1 2",
        b" 2147483648",
        b"-2147483649",
        b"          -",
        b"         1\t",
    ];
    match random.below(8) {
        0 => row[37] = random.pick(b" 0\r\x0b"),
        1 => row[..4].copy_from_slice(random.pick(&[b"    ", b"0010", b"10  ", b" +10", b"  -0"])),
        2 => row.swap(3, 4),
        3 => row[random.below(38)] = random.pick(b"\0x.+/:\xff\n"),
        _ => row[number..number + 11].copy_from_slice(random.pick(&texts)),
    }
}

/// Refusal 3: an unknown or falling tag, or an unused column.
fn damage_tag(rows: &mut [Row], random: &mut Random) {
    let unused = places(rows, |row| matches!(row.tag, 30..=32 | 50 | 70));
    let place = random.below(rows.len());
    match random.below(3) {
        0 => rows[place].tag = random.pick(&[0, -1, 9, 11, 29, 33, 53, 61, 71, 80, 9999, -999]),
        1 => rows.swap(place, random.below(rows.len())),
        _ => {
            if let Some(place) = random.maybe(&unused) {
                rows[place].c = random.pick(&[1, -1, 5, i32::MIN]);
                if rows[place].tag != GUARD && random.one_in(2) {
                    rows[place].b = rows[place].c;
                    rows[place].c = 0;
                }
            }
        }
    }
}

/// Refusal 4: more rows of one tag than its limit, or just as many.
fn overfill(rows: &mut Vec<Row>, random: &mut Random) {
    let (tag, most) = random.pick(&[
        (10, 64),
        (20, 512),
        (30, 16),
        (31, 16),
        (32, 16),
        (40, 32),
        (50, 64),
        (51, 128),
        (52, 128),
        (60, 128),
        (70, 1),
    ]);
    let group = |row: &Row| row.tag == tag || (is_action(tag) && is_action(row.tag));
    let wanted = most + random.below(4);
    let copied = rows.iter().copied().find(|row| row.tag == tag);
    let extra = copied.unwrap_or(Row::new(tag, 1, 0, 0));
    while rows.iter().filter(|row| group(row)).count() < wanted {
        rows.push(extra);
    }
    rows.sort_by_key(|row| row.tag);
}

pub fn is_action(tag: i32) -> bool {
    tag == BECOMES_EQUAL || tag == BECOMES_SUCH_THAT
}

/// Refusal 5: machine, class, refined event or order.
fn damage_event(rows: &mut [Row], random: &mut Random) {
    let events = places(rows, |row| row.tag == 40);
    let Some(place) = random.maybe(&events) else {
        return;
    };
    match random.below(5) {
        0 => rows[place].a = random.pick(&[0, 1, 2, 3, -1, i32::MAX]),
        1 => rows[place].b = random.pick(&[0, 1, 2, 3, 4, -1, i32::MIN]),
        2 => rows[place].c = random.pick(&[0, 1, 2, 3, 5, 33, -1, i32::MAX]),
        3 => rows.swap(place, random.pick(&events)),
        _ => rows[place].c = random.between(1, events.len() + 1) as i32,
    }
}

/// Refusal 6: kind, type or owner.
fn damage_identifier(rows: &mut [Row], random: &mut Random) {
    let events = rows.iter().filter(|row| row.tag == 40).count();
    let Some(place) = random.maybe(&places(rows, |row| row.tag == 10)) else {
        return;
    };
    match random.below(4) {
        0 => rows[place].a = random.pick(&[0, 1, 2, 3, 4, 5, 6, 7, -1]),
        1 => rows[place].b = random.pick(&[0, 3, -1, i32::MAX]),
        2 => rows[place].c = random.pick(&ODD),
        _ => rows[place].c = random.between(0, events + 1) as i32,
    }
}

/// Refusal 7: an operator, an unused node column, or a number that names nothing fitting.
fn damage_reference(rows: &mut [Row], random: &mut Random) {
    let tag = random.pick(&[20, 20, 30, 31, 32, 50, 51, 52, 60, 60, 70]);
    let Some(place) = random.maybe(&places(rows, |row| row.tag == tag)) else {
        return;
    };
    let nodes = rows.iter().filter(|row| row.tag == 20).count() as i32;
    let first_node = rows.iter().position(|row| row.tag == 20).unwrap_or(0);
    let own = (place as i32 - first_node as i32 + 1).max(0);
    let number = match random.below(4) {
        0 => random.pick(&ODD),
        1 => random.pick(&[own, own + 1, nodes, nodes + 1]),
        _ => random.below(66) as i32,
    };
    let row = &mut rows[place];
    match (tag, random.below(3)) {
        (20, 0) => row.a = random.pick(&[0, 7, 9, 16, 19, 23, 29, 37, 40, 41, -1, 3]),
        (30..=32 | 70, _) | (_, 0) => row.a = number,
        (50, _) | (_, 1) => row.b = number,
        _ => row.c = number,
    }
}

/// Refusal 8: an identifier of the other type.
fn flip_type(rows: &mut [Row], random: &mut Random) {
    if let Some(place) = random.maybe(&places(rows, |row| row.tag == 10)) {
        rows[place].b = INTEGER + BOOLEAN - rows[place].b.clamp(INTEGER, BOOLEAN);
    }
}

/// Refusal 9: a node more, or one number that names another node.
fn damage_use(rows: &mut Vec<Row>, random: &mut Random) {
    let nodes = places(rows, |row| row.tag == 20);
    let literal = random.below(9) as i32;
    if random.one_in(3) || nodes.is_empty() {
        let place = rows.partition_point(|row| row.tag <= 20);
        rows.insert(place, Row::new(20, LITERAL, literal, 0));
        return;
    }
    let place = random.below(rows.len());
    let any = random.between(1, nodes.len()) as i32;
    let row = &mut rows[place];
    match row.tag {
        20 if columns(row.a) == Some(Columns::TwoOperands) && random.one_in(2) => row.c = row.b,
        20 if columns(row.a) == Some(Columns::TwoOperands) => {
            row.b = 1 + any % row.b.max(row.c).max(1);
        }
        30..=32 | 70 => row.a = any,
        50 => row.b = any,
        51 | 52 | 60 => row.c = any,
        _ => {}
    }
}

/// Puts a tree in place of some part of this one, and gives whether it did.
fn replace_part(
    tree: &mut Tree,
    skip: &mut usize,
    wanted: &dyn Fn(&Tree) -> bool,
    new: &Tree,
) -> bool {
    if wanted(tree) {
        if *skip == 0 {
            *tree = new.clone();
            return true;
        }
        *skip -= 1;
    }
    tree.operands
        .iter_mut()
        .any(|operand| replace_part(operand, skip, wanted, new))
}

/// Refusal 8: a part of some formula gives way to a leaf of another sort.
fn wrong_sort(draft: &mut Draft, random: &mut Random) {
    if draft.formulas.is_empty() {
        return;
    }
    let place = random.below(draft.formulas.len());
    let DraftFormula {
        tag,
        event,
        identifier,
        ..
    } = draft.formulas[place];
    let seen = sight(draft, tag, event, identifier);
    let sort = random.pick(&[Sort::Integer, Sort::Boolean, Sort::Predicate]);
    let new = Grower::new(random, &seen).grow(sort, 1);
    let mut skip = random.below(12);
    replace_part(&mut draft.formulas[place].tree, &mut skip, &|_| true, &new);
}

/// Refusal 10: a leaf mentions something of its sort that it may not, or a row moves.
fn wrong_sight(draft: &mut Draft, random: &mut Random) {
    if draft.formulas.is_empty() {
        return;
    }
    let place = random.below(draft.formulas.len());
    if random.one_in(4) {
        let formula = &mut draft.formulas[place];
        match formula.tag {
            31 | 32 => formula.tag = 30,
            50 => formula.event = random.between(2, draft.events.len()) as i32,
            _ => {}
        }
        return;
    }
    let Some(number) = random.maybe(&numbers_of(&draft.identifiers, |_| true)) else {
        return;
    };
    let [kind, type_number, _] = draft.identifiers[number as usize - 1];
    let after = is_variable(kind) && random.one_in(2);
    let new = Tree::leaf(if after { AFTER } else { IDENTIFIER }, number);
    let sort = sort_of_type(type_number);
    let identifiers = draft.identifiers.clone();
    let same_sort = |tree: &Tree| leaf_sort(&identifiers, tree) == Some(sort);
    let mut skip = random.below(4);
    replace_part(&mut draft.formulas[place].tree, &mut skip, &same_sort, &new);
}

/// The sort of an integer or boolean leaf.
fn leaf_sort(identifiers: &[[i32; 3]], tree: &Tree) -> Option<Sort> {
    match tree.operator {
        LITERAL => Some(Sort::Integer),
        IDENTIFIER | AFTER => Some(sort_of_type(identifiers[tree.value as usize - 1][1])),
        TRUE | FALSE => Some(Sort::Boolean),
        _ => None,
    }
}

/// Refusal 11: an action or witness for a target that has one.
fn second_target(draft: &mut Draft, random: &mut Random) {
    let targeted: Vec<usize> = (0..draft.formulas.len())
        .filter(|&place| (51..=60).contains(&draft.formulas[place].tag))
        .collect();
    let Some(place) = random.maybe(&targeted) else {
        return;
    };
    let mut formula = draft.formulas[place].clone();
    if formula.tag != WITNESS && random.one_in(2) {
        formula.tag = BECOMES_EQUAL + BECOMES_SUCH_THAT - formula.tag;
    }
    let seen = sight(draft, formula.tag, formula.event, formula.identifier);
    let sort = root_sort(draft, formula.tag, formula.identifier);
    formula.tree = Grower::new(random, &seen).grow(sort, 1);
    let at = random.below(draft.formulas.len() + 1);
    draft.formulas.insert(at, formula);
}

/// Refusal 12: something is left out, or a variant is without convergent or anticipated events.
fn leave_out(draft: &mut Draft, random: &mut Random) {
    match random.below(5) {
        0 => drop_formula(draft, random, |one| one.tag == WITNESS),
        1 => {
            let initial = |event: i32, events: &[[i32; 3]]| events[event as usize - 1][1] == 0;
            let events = draft.events.clone();
            drop_formula(draft, random, |one| {
                (51..=52).contains(&one.tag) && initial(one.event, &events)
            });
        }
        2 => {
            if draft.count(&[VARIANT]) == 0 {
                draft.formulas.push(DraftFormula {
                    tag: VARIANT,
                    event: 0,
                    identifier: 0,
                    tree: Tree::leaf(LITERAL, random.below(100) as i32),
                });
            } else {
                draft.formulas.retain(|one| one.tag != VARIANT);
            }
        }
        3 => draft.events[0][1] = ORDINARY,
        _ => {
            let concrete = draft.events.iter().position(|event| event[0] == CONCRETE);
            let ordinary = numbers_of(&draft.events, |event| event[0] == 1 && event[1] == 1);
            if let (Some(place), Some(refined)) = (concrete, random.maybe(&ordinary)) {
                draft.events[place] = [CONCRETE, ORDINARY, refined];
            }
        }
    }
}

fn drop_formula(draft: &mut Draft, random: &mut Random, meets: impl Fn(&DraftFormula) -> bool) {
    let found: Vec<usize> = (0..draft.formulas.len())
        .filter(|&place| meets(&draft.formulas[place]))
        .collect();
    if let Some(place) = random.maybe(&found) {
        draft.formulas.remove(place);
    }
}
