//! Tables one step from a refusal, on either side of it: one row more or less, one number, one place.

use super::accepted_draft;
use super::damage::{is_action, places};
use super::draft::{Draft, DraftFormula};
use super::new_events::{make_ordinary, near_anticipated};
use super::plan::{numbers_of, root_sort, sight};
use super::random::Random;
use super::sections::{sectioned, TAGS};
use super::shared::{near_shared, NEAR_SHARED};
use super::tree::{Grower, Tree};
use crate::formula::{columns, sort, Columns, LITERAL};
use crate::rows::{bytes_of, Row};
use crate::table::*;

/// The refusals that tables come near to.
pub const NEAR: [i32; 8] = [3, 4, 5, 6, 7, 9, 11, 12];

/// Any of them, whatever the table's refusal then is; one for shared variables; or whole sections left out.
pub fn near_miss(random: &mut Random) -> Vec<u8> {
    let mut draft = if random.one_in(2) {
        sectioned(random)
    } else {
        accepted_draft(random)
    };
    if random.one_in(6) {
        return bytes_of(&without_sections(draft.rows(random), random));
    }
    if random.one_in(2) {
        near_shared(random.pick(&NEAR_SHARED), &mut draft, random);
        return bytes_of(&draft.rows(random));
    }
    let refusal = if random.one_in(6) {
        random.pick(&[5, 6, 7])
    } else {
        random.pick(&[3, 4, 4, 9, 9, 11, 11, 12, 12])
    };
    bytes_of(&near(refusal, &draft, random))
}

/// Rows near this refusal, one of those above.
pub fn near(refusal: i32, draft: &Draft, random: &mut Random) -> Vec<Row> {
    let mut draft = draft.clone();
    match refusal {
        6 | 7 | 11 | 12 if random.one_in(3) => near_shared(refusal, &mut draft, random),
        5..=7 => near_anticipated(refusal, &mut draft, random),
        11 => second_target(&mut draft, random, |_| true),
        12 => leave_one_out(&mut draft, random),
        _ => {}
    }
    let mut rows = draft.rows(random);
    match refusal {
        3 => fall_once(&mut rows, random),
        4 => fill(&mut rows, random),
        9 => change_use(&mut rows, random),
        _ => {}
    }
    rows
}

/// Some tags have no rows, the other rows stay as they are.
fn without_sections(mut rows: Vec<Row>, random: &mut Random) -> Vec<Row> {
    for tag in TAGS {
        if random.one_in(3) {
            rows.retain(|row| row.tag != tag);
        }
    }
    rows
}

/// Tags fall at one row: a row moves past the end or the start of its section, or two sections change places.
fn fall_once(rows: &mut Vec<Row>, random: &mut Random) {
    // where one section ends and the next starts
    let starts: Vec<usize> = (1..rows.len())
        .filter(|&place| rows[place - 1].tag != rows[place].tag)
        .collect();
    let Some(start) = random.maybe(&starts) else {
        return;
    };
    let first = rows.partition_point(|row| row.tag < rows[start - 1].tag);
    let end = rows.partition_point(|row| row.tag <= rows[start].tag);
    match random.below(5) {
        0 => rows[start - 1..=start].rotate_left(1),
        1 => rows[start - 1..end].rotate_left(1),
        2 => rows[first..=start].rotate_right(1),
        3 => rows[first..end].rotate_left(start - first),
        _ => {
            let row = rows.remove(start - 1);
            rows.push(row);
        }
    }
}

/// Each limit, by the tags that it counts.
const LIMITS: [(&[i32], usize); 10] = [
    (&[10], Table::MOST_IDENTIFIERS),
    (&[20], Table::MOST_NODES),
    (&[30], Table::MOST_AXIOMS),
    (&[31], Table::MOST_INVARIANTS),
    (&[32], Table::MOST_INVARIANTS),
    (&[40], Table::MOST_EVENTS),
    (&[50], Table::MOST_GUARDS),
    (&[51, 52], Table::MOST_ACTIONS),
    (&[60], Table::MOST_WITNESSES),
    (&[70], Table::MOST_VARIANTS),
];

/// A section is filled to its limit or to one row above, now and then two sections.
fn fill(rows: &mut Vec<Row>, random: &mut Random) {
    for _ in 0..random.pick(&[1, 1, 1, 2]) {
        let one_in_three = random.one_in(3);
        let (tags, most) = if one_in_three {
            (&[51, 52][..], Table::MOST_ACTIONS)
        } else {
            random.pick(&LIMITS)
        };
        let wanted = most + random.pick(&[0, 1, 1]);
        fill_section(rows, tags, wanted, random);
    }
    rows.sort_by_key(|row| row.tag);
}

/// Adds rows up to the number wanted. Those of two tags: of one, of one but for a single row, or of both in turn.
fn fill_section(rows: &mut Vec<Row>, tags: &[i32], wanted: usize, random: &mut Random) {
    let tag = random.pick(tags);
    let mode = random.below(4);
    if tags.len() > 1 && mode < 2 {
        rows.retain(|row| !tags.contains(&row.tag));
        let other = 51 + 52 - tag;
        rows.extend(vec![Row::new(other, 1, 1, 1); mode]);
    }
    let count = rows.iter().filter(|row| tags.contains(&row.tag)).count();
    for n in count..wanted {
        let tag = if mode == 2 { tags[n % tags.len()] } else { tag };
        let same = rows.iter().copied().filter(|row| row.tag == tag);
        let copied: Vec<Row> = same.take(4).collect();
        let row = random.maybe(&copied).unwrap_or(Row::new(tag, 1, 0, 0));
        rows.push(row);
    }
}

/// A node gets a use more or less, or has its use elsewhere.
fn change_use(rows: &mut Vec<Row>, random: &mut Random) {
    let nodes = rows.iter().filter(|row| row.tag == 20).count();
    let roots = places(rows, |row| !matches!(row.tag, 10 | 20 | 40));
    match random.below(6) {
        0 => {
            let any = random.between(1, nodes + 1);
            let number = random.pick(&[1, nodes + 1, any]);
            insert_node(rows, number as i32, random);
        }
        1 => {
            // its root has no use then
            let last = roots.last().copied().unwrap_or(0);
            if let Some(place) = random.maybe(&roots) {
                rows.remove(random.pick(&[place, last]));
            }
        }
        2 => {
            if let Some(&last) = roots.last() {
                name_another(rows, last, random);
            }
        }
        3 => {
            if let Some(place) = random.maybe(&roots) {
                name_another(rows, place, random);
            }
        }
        4 => {
            let pairs = places(rows, |row| row.tag == 20 && is_pair(row.a));
            if let Some(place) = random.maybe(&pairs) {
                name_another(rows, place, random);
            }
        }
        _ => add_root(rows, random),
    }
}

fn is_pair(operator: i32) -> bool {
    columns(operator) == Some(Columns::TwoOperands)
}

/// The column that holds a number of a node, in a row that names a root or has two operands.
fn named_node(row: &mut Row) -> &mut i32 {
    match row.tag {
        30..=32 | 70 => &mut row.a,
        20 | 50 => &mut row.b,
        _ => &mut row.c,
    }
}

/// A node more, before the one that has this number now.
fn insert_node(rows: &mut Vec<Row>, number: i32, random: &mut Random) {
    let later = |node: &mut i32| *node += i32::from(*node >= number);
    for row in rows.iter_mut() {
        match row.tag {
            10 | 40 => {}
            20 => match columns(row.a) {
                Some(Columns::OneOperand) => later(&mut row.b),
                Some(Columns::TwoOperands) => {
                    later(&mut row.b);
                    later(&mut row.c);
                }
                _ => {}
            },
            _ => later(named_node(row)),
        }
    }
    let first = rows.partition_point(|row| row.tag < 20);
    let node = Row::new(20, LITERAL, random.below(9) as i32, 0);
    rows.insert(first + number as usize - 1, node);
}

/// The row names another node of the same sort, an earlier one if it is a node itself.
fn name_another(rows: &mut [Row], place: usize, random: &mut Random) {
    let table = Table::new(rows.to_vec());
    let first = rows.partition_point(|row| row.tag < 20);
    let node = named_node(&mut rows[place]);
    let now = table.nodes[*node as usize - 1];
    let end = table.nodes.len().min(place - first);
    let others: Vec<i32> = (1..=end as i32)
        .filter(|&other| other != *node)
        .filter(|&other| sort(&table, table.nodes[other as usize - 1]) == sort(&table, now))
        .collect();
    if let Some(other) = random.maybe(&others) {
        *node = other;
    }
}

/// A row more names a root that another row names.
fn add_root(rows: &mut Vec<Row>, random: &mut Random) {
    let predicates = places(rows, |row| matches!(row.tag, 30..=32 | 50 | 52 | 60));
    let Some(place) = random.maybe(&predicates) else {
        return;
    };
    let root = *named_node(&mut rows[place]);
    let tag = random.pick(&[30, 31, 32]);
    let at = rows.partition_point(|row| row.tag <= tag);
    rows.insert(at, Row::new(tag, root, 0, 0));
}

/// The first or the last row of a section, or any.
fn chosen_place(places: &[usize], random: &mut Random) -> Option<usize> {
    let (first, last) = (*places.first()?, *places.last()?);
    let any = random.pick(places);
    Some(random.pick(&[first, last, any]))
}

/// The places of the formulas that meet the condition.
pub fn formulas(draft: &Draft, meets: impl Fn(&DraftFormula) -> bool) -> Vec<usize> {
    (0..draft.formulas.len())
        .filter(|&place| meets(&draft.formulas[place]))
        .collect()
}

/// A second action or witness for one of the targets wanted, at the other end of its section; or the same target for another
/// event.
pub fn second_target(draft: &mut Draft, random: &mut Random, wanted: impl Fn(i32) -> bool) {
    let tag = random.pick(&[51, 52, 60]);
    let any = random.one_in(2);
    let targeted =
        |one: &DraftFormula| (is_action(one.tag) || one.tag == WITNESS) && wanted(one.identifier);
    let found = formulas(draft, |one| targeted(one) && (any || one.tag == tag));
    let Some(place) = chosen_place(&found, random) else {
        return;
    };
    let mut formula = draft.formulas[place].clone();
    if is_action(formula.tag) {
        if random.one_in(3) {
            formula.tag = 51 + 52 - formula.tag;
        }
        if random.one_in(4) {
            let kind = draft.identifiers[formula.identifier as usize - 1][0];
            let own = numbers_of(&draft.events, |event| is_variable_of(event[0], kind));
            formula.event = random.pick(&own);
        }
    }
    let seen = sight(draft, formula.tag, formula.event, formula.identifier);
    let sort = root_sort(draft, formula.tag, formula.identifier);
    formula.tree = Grower::new(random, &seen).grow(sort, 1);
    let early = found.iter().filter(|&&one| one < place).count() < found.len() / 2;
    let far = if early {
        found[found.len() - 1]
    } else {
        found[0]
    };
    // Where the section is full, there is room only in place of another row.
    if far != place && random.one_in(2) {
        draft.formulas.remove(far);
    }
    let at = if early { draft.formulas.len() } else { 0 };
    draft.formulas.insert(at, formula);
}

/// What check 12 asks for.
#[derive(Clone, Copy)]
enum Missing {
    Initialisation(i32),
    InitialAction(i32),
    /// Of an abstract variable at a concrete class.
    VariableWitness(i32),
    ParameterWitness,
    Variant,
    /// A convergent or anticipated one, for the variant.
    NewEvent,
}

/// One thing that check 12 asks for is left out, nothing else: any of those that the draft has. Initialisations, which every
/// draft has, are left out first in one case of five, else last.
fn leave_one_out(draft: &mut Draft, random: &mut Random) {
    let mut all = [
        Missing::InitialAction(ABSTRACT),
        Missing::InitialAction(CONCRETE),
        Missing::VariableWitness(INITIALISATION),
        Missing::VariableWitness(ORDINARY),
        Missing::ParameterWitness,
        Missing::Variant,
        Missing::NewEvent,
    ];
    random.shuffle(&mut all);
    let initial = Missing::Initialisation(random.pick(&[ABSTRACT, CONCRETE]));
    let first = random.one_in(5).then_some(initial);
    for missing in first.into_iter().chain(all).chain([initial]) {
        match missing {
            Missing::Initialisation(machine) => return remove_initialisation(draft, machine),
            Missing::Variant if converge_without_variant(draft, random) => return,
            Missing::NewEvent if drop_new_events(draft, random) => return,
            _ => {}
        }
        let found = formulas(draft, |one| is_asked_for(draft, one, missing));
        if let Some(place) = chosen_place(&found, random) {
            draft.formulas.remove(place);
            return;
        }
    }
}

/// Whether without this formula just that thing is missing.
fn is_asked_for(draft: &Draft, formula: &DraftFormula, missing: Missing) -> bool {
    let event = || draft.events[formula.event as usize - 1];
    let kind = || draft.identifiers[formula.identifier as usize - 1][0];
    let witness = |wanted| formula.tag == WITNESS && kind() == wanted;
    match missing {
        Missing::Initialisation(_) | Missing::NewEvent => false,
        Missing::InitialAction(machine) => {
            is_action(formula.tag) && event()[..2] == [machine, INITIALISATION]
        }
        Missing::VariableWitness(class) => witness(ABSTRACT_VARIABLE) && event()[1] == class,
        Missing::ParameterWitness => witness(ABSTRACT_PARAMETER),
        Missing::Variant => {
            let converges = |event: &[i32; 3]| event[1] == CONVERGENT;
            formula.tag == VARIANT && draft.events.iter().any(converges)
        }
    }
}

/// The event goes, with all that belongs to it, and later ones get lower numbers.
fn remove_initialisation(draft: &mut Draft, machine: i32) {
    let initial = |event: &[i32; 3]| event[..2] == [machine, INITIALISATION];
    let Some(place) = draft.events.iter().position(initial) else {
        return;
    };
    let number = place as i32 + 1;
    let lower = |event: &mut i32| *event -= i32::from(*event > number);
    draft.events.remove(place);
    draft
        .events
        .iter_mut()
        .for_each(|event| lower(&mut event[2]));
    draft
        .identifiers
        .iter_mut()
        .for_each(|one| lower(&mut one[2]));
    draft.formulas.retain(|one| one.event != number);
    draft
        .formulas
        .iter_mut()
        .for_each(|one| lower(&mut one.event));
}

/// An anticipated event becomes convergent where there is no variant. Gives whether one did.
fn converge_without_variant(draft: &mut Draft, random: &mut Random) -> bool {
    let found = numbers_of(&draft.events, |event| event[1] == ANTICIPATED);
    let Some(event) = random.maybe(&found) else {
        return false;
    };
    if draft.count(&[VARIANT]) > 0 {
        return false;
    }
    draft.events[event as usize - 1][1] = CONVERGENT;
    true
}

/// A variant without new events: these become ordinary ones, and there is a variant. Gives whether it was done.
fn drop_new_events(draft: &mut Draft, random: &mut Random) -> bool {
    let has_new = draft.events.iter().any(|event| is_new(event[1]));
    if has_new && !make_ordinary(draft, random) {
        return false;
    }
    if draft.count(&[VARIANT]) == 0 {
        add_variant(draft);
    }
    true
}

fn add_variant(draft: &mut Draft) {
    draft.formulas.push(DraftFormula {
        tag: VARIANT,
        event: 0,
        identifier: 0,
        tree: Tree::leaf(LITERAL, 1),
    });
}
