//! Tables at the limits, for a use of stack that grows with rows, with nodes, with depth or with the place of a fault.

use crate::bench;
use crate::checks::accept;
use crate::formula::*;
use crate::generate;
use crate::generate::damage::aimed;
use crate::generate::draft::{Draft, DraftFormula};
use crate::generate::plan::{extreme, root_sort, EXTREMES};
use crate::generate::random::Random;
use crate::generate::tree::Tree;
use crate::rows::{bytes_of, Row, ROW_BYTES};
use crate::table::*;

/// A table, and words that tell it from the others of its group.
pub type Named = (String, Vec<u8>);

/// Tables of one sort.
pub struct Group {
    pub name: String,
    pub tables: Vec<Named>,
}

pub fn groups() -> Vec<Group> {
    let mut groups = Vec::new();
    for (name, table) in bench::tables() {
        groups.push(group(name, vec![(String::new(), table)]));
    }
    groups.push(group(
        "extremes",
        (0..EXTREMES).map(extreme_table).collect(),
    ));
    for shape in SHAPES {
        groups.push(group(shape.name(), deep(shape)));
    }
    groups.push(group("deep, 64 identifiers, 32 events", deep_with_events()));
    groups.push(group("deep, every limit", deep_at_every_limit()));
    groups.extend(most_rows());
    groups.push(group("shared nodes, every limit", shared()));
    for number in 5..=12 {
        groups.push(group(&format!("refused by {number}"), refused(number)));
    }
    groups.push(group("generated", (0..SEEDS).map(generated).collect()));
    groups
}

fn group(name: &str, tables: Vec<Named>) -> Group {
    Group {
        name: name.to_string(),
        tables,
    }
}

/// Seeds of the generator whose tables are taken.
const SEEDS: u64 = 200;

fn generated(seed: u64) -> Named {
    (format!("(seed {seed})"), generate::table(seed))
}

fn extreme_table(number: usize) -> Named {
    let draft = extreme(number, &mut Random::new(1));
    (format!("({number})"), laid_out(&draft))
}

fn laid_out(draft: &Draft) -> Vec<u8> {
    bytes_of(&draft.rows(&mut Random::new(1)))
}

/// How a formula goes down.
#[derive(Clone, Copy)]
enum Shape {
    Chain,
    Left,
    Right,
    Bool,
}

const SHAPES: [Shape; 4] = [Shape::Chain, Shape::Left, Shape::Right, Shape::Bool];

impl Shape {
    fn name(self) -> &'static str {
        match self {
            Shape::Chain => "deep, chain of negations",
            Shape::Left => "deep, pairs on the left",
            Shape::Right => "deep, pairs on the right",
            Shape::Bool => "deep, nested bool(P)",
        }
    }

    fn operators(self) -> &'static [i32] {
        match self {
            Shape::Chain => &[NEGATION, NOT],
            Shape::Left | Shape::Right => &[MINUS, DIVIDE, MOD, AND, OR, IMPLIES, EQUIVALENT],
            Shape::Bool => &[BOOL],
        }
    }

    /// One or two of them, for tables whose calls take long.
    fn few_operators(self) -> &'static [i32] {
        match self {
            Shape::Left => &[MOD, IMPLIES],
            Shape::Right => &[DIVIDE, MOD],
            _ => self.operators(),
        }
    }

    /// A formula over this leaf with that one at its end, as deep as so many nodes go.
    fn tree(self, operator: i32, leaf: &Tree, end: &Tree, nodes: usize) -> Tree {
        let a_level = match self {
            Shape::Chain => 1,
            Shape::Left | Shape::Right => 2,
            Shape::Bool => 3,
        };
        let mut tree = end.clone();
        for _ in 0..(nodes - end.nodes()) / a_level {
            tree = match self {
                Shape::Chain => Tree::one(operator, tree),
                Shape::Left => Tree::two(operator, tree, leaf.clone()),
                Shape::Right => Tree::two(operator, leaf.clone(), tree),
                Shape::Bool => Tree::two(EQUAL, Tree::one(BOOL, tree), Tree::leaf(TRUE, 0)),
            };
        }
        tree
    }
}

fn leaf(sort: Sort) -> Tree {
    match sort {
        Sort::Integer => Tree::leaf(LITERAL, 7),
        Sort::Boolean => Tree::leaf(TRUE, 0),
        Sort::Predicate => Tree::leaf(TOP, 0),
    }
}

/// What a deep formula ends with: a leaf, or ÷ for the sake of its WD.
#[derive(Clone, Copy)]
enum End {
    Leaf,
    Division,
}

impl End {
    fn tree(self, sort: Sort) -> Tree {
        let number = || leaf(Sort::Integer);
        let quotient = Tree::two(DIVIDE, number(), number());
        match (self, sort) {
            (End::Leaf, _) => leaf(sort),
            (End::Division, Sort::Integer) => quotient,
            (End::Division, _) => Tree::two(EQUAL, quotient, number()),
        }
    }

    fn words(self) -> &'static str {
        match self {
            End::Leaf => "",
            End::Division => ", ending with ÷",
        }
    }
}

/// A deep formula of this sort, if the operator can make one.
fn deep_tree(shape: Shape, operator: i32, end: End, sort: Sort, nodes: usize) -> Option<Tree> {
    let integers = (PLUS..=NEGATION).contains(&operator);
    let over = |sort, nodes| shape.tree(operator, &leaf(sort), &end.tree(sort), nodes);
    let of_integers = |nodes| over(Sort::Integer, nodes);
    let of_predicates = |nodes| over(Sort::Predicate, nodes);
    match sort {
        Sort::Integer if integers => Some(of_integers(nodes)),
        Sort::Predicate if integers => {
            let right = leaf(Sort::Integer);
            Some(Tree::two(EQUAL, of_integers(nodes - 2), right))
        }
        Sort::Predicate => Some(of_predicates(nodes)),
        Sort::Boolean if !integers => Some(Tree::one(BOOL, of_predicates(nodes - 1))),
        _ => None,
    }
}

/// The row of a formula: tag, event, identifier.
type Place = (i32, i32, i32);

fn place(formula: &DraftFormula) -> Place {
    (formula.tag, formula.event, formula.identifier)
}

/// A formula of one node.
fn smallest(draft: &Draft, (tag, event, identifier): Place) -> DraftFormula {
    DraftFormula {
        tag,
        event,
        identifier,
        tree: leaf(root_sort(draft, tag, identifier)),
    }
}

/// Puts a formula of one node into each place.
fn with_leaves(mut draft: Draft, places: &[Place]) -> Draft {
    let formulas = places.iter().map(|&place| smallest(&draft, place));
    draft.formulas = formulas.collect();
    draft
}

/// The draft with a deep formula in this place, of all the nodes that its other formulas leave.
fn with_deep(
    mut draft: Draft,
    wanted: Place,
    shape: Shape,
    operator: i32,
    end: End,
) -> Option<Named> {
    // Of several the last one, whose row comes last.
    let found = draft.formulas.iter().rposition(|one| place(one) == wanted);
    let at = found.unwrap_or(draft.formulas.len());
    if found.is_none() {
        draft.formulas.push(smallest(&draft, wanted));
    }
    let nodes = Table::MOST_NODES - (draft.formulas.len() - 1);
    let (tag, event, identifier) = wanted;
    let sort = root_sort(&draft, tag, identifier);
    draft.formulas[at].tree = deep_tree(shape, operator, end, sort, nodes)?;
    let row = format!("row {tag} {event} {identifier}");
    let (name, ends) = (shape.name(), end.words());
    let words = format!("({name}, operator {operator}{ends}, {row})");
    Some((words, laid_out(&draft)))
}

/// Both initialisations, and these classes of new events, for a variant.
fn bare(new_events: &[i32]) -> Draft {
    let mut draft = Draft::default();
    draft.events.push([ABSTRACT, INITIALISATION, 0]);
    draft.events.push([CONCRETE, INITIALISATION, 0]);
    let new_events = new_events.iter().map(|&class| [CONCRETE, class, 0]);
    draft.events.extend(new_events);
    draft
}

/// An event of each class in either machine, a variable of each, one that both share, and a parameter.
fn small() -> Draft {
    let draft = Draft {
        identifiers: vec![
            [ABSTRACT_VARIABLE, INTEGER, 0],
            [CONCRETE_VARIABLE, INTEGER, 0],
            [ABSTRACT_PARAMETER, INTEGER, 2],
            [SHARED_VARIABLE, INTEGER, 0],
        ],
        events: vec![
            [ABSTRACT, INITIALISATION, 0],
            [ABSTRACT, ORDINARY, 0],
            [CONCRETE, INITIALISATION, 0],
            [CONCRETE, ORDINARY, 2],
            [CONCRETE, CONVERGENT, 0],
            [CONCRETE, ANTICIPATED, 0],
        ],
        formulas: vec![],
    };
    let places = [
        (BECOMES_EQUAL, 1, 1),
        (BECOMES_EQUAL, 3, 2),
        (BECOMES_EQUAL, 1, 4),
        (BECOMES_EQUAL, 3, 4),
        (WITNESS, 3, 1),
        (WITNESS, 4, 1),
        (WITNESS, 4, 3),
        (VARIANT, 0, 0),
    ];
    with_leaves(draft, &places)
}

/// Places in the small machine for one formula more, or for one that it has.
const PLACES: [Place; 18] = [
    (AXIOM, 0, 0),
    (ABSTRACT_INVARIANT, 0, 0),
    (CONCRETE_INVARIANT, 0, 0),
    (GUARD, 2, 0),
    (GUARD, 4, 0),
    (GUARD, 5, 0),
    (GUARD, 6, 0),
    (BECOMES_EQUAL, 1, 1),
    (BECOMES_EQUAL, 4, 2),
    (BECOMES_EQUAL, 6, 2),
    (BECOMES_EQUAL, 5, 4),
    (BECOMES_SUCH_THAT, 2, 4),
    (BECOMES_SUCH_THAT, 2, 1),
    (BECOMES_SUCH_THAT, 4, 2),
    (BECOMES_SUCH_THAT, 6, 2),
    (WITNESS, 4, 1),
    (WITNESS, 4, 3),
    (VARIANT, 0, 0),
];

/// One formula of 512 nodes alone, or of nearly as many in each place.
fn deep(shape: Shape) -> Vec<Named> {
    let mut tables = Vec::new();
    for &operator in shape.operators() {
        for end in [End::Leaf, End::Division] {
            let with = |draft, place| with_deep(draft, place, shape, operator, end);
            tables.extend(with(bare(&[]), (AXIOM, 0, 0)));
            tables.extend(with(bare(&[CONVERGENT, ANTICIPATED]), (VARIANT, 0, 0)));
            let in_place = |place| with(small(), place);
            tables.extend(PLACES.into_iter().filter_map(in_place));
        }
    }
    tables
}

/// A formula of each shape in each of these places, with WD.
fn deep_in(draft: &Draft, places: &[Place]) -> Vec<Named> {
    let mut tables = Vec::new();
    for shape in SHAPES {
        for &operator in shape.few_operators() {
            let in_place =
                |&place: &Place| with_deep(draft.clone(), place, shape, operator, End::Division);
            tables.extend(places.iter().filter_map(in_place));
        }
    }
    tables
}

/// As many rows as leave nearly all nodes to one formula.
fn deep_with_events() -> Vec<Named> {
    let mut draft = Draft {
        identifiers: vec![[CONSTANT, INTEGER, 0]; Table::MOST_IDENTIFIERS],
        events: vec![[CONCRETE, ORDINARY, 2]; Table::MOST_EVENTS],
        formulas: vec![],
    };
    draft.identifiers[Table::MOST_IDENTIFIERS - 1] = [CONCRETE_VARIABLE, INTEGER, 0];
    draft.events[0] = [ABSTRACT, INITIALISATION, 0];
    draft.events[1] = [ABSTRACT, ORDINARY, 0];
    draft.events[2] = [CONCRETE, INITIALISATION, 0];
    draft.events[Table::MOST_EVENTS - 2] = [CONCRETE, ANTICIPATED, 0];
    draft.events[Table::MOST_EVENTS - 1] = [CONCRETE, CONVERGENT, 0];
    let variable = Table::MOST_IDENTIFIERS as i32;
    let event = Table::MOST_EVENTS as i32;
    let draft = with_leaves(draft, &[(BECOMES_EQUAL, 3, variable), (VARIANT, 0, 0)]);
    let places = [
        (AXIOM, 0, 0),
        (CONCRETE_INVARIANT, 0, 0),
        (GUARD, 2, 0),
        (GUARD, event, 0),
        (BECOMES_EQUAL, event, variable),
        (BECOMES_SUCH_THAT, event, variable),
        (VARIANT, 0, 0),
    ];
    deep_in(&draft, &places)
}

/// The draft of a table that reaches every limit.
fn every_limit() -> Draft {
    extreme(0, &mut Random::new(1))
}

/// The same rows with formulas of one node.
fn only_leaves() -> Draft {
    let draft = every_limit();
    let places: Vec<Place> = draft.formulas.iter().map(place).collect();
    with_leaves(draft, &places)
}

/// The formula is the last one of its tag, and has the nodes that are left.
fn deep_at_every_limit() -> Vec<Named> {
    let draft = only_leaves();
    let tags = [
        AXIOM,
        ABSTRACT_INVARIANT,
        CONCRETE_INVARIANT,
        GUARD,
        BECOMES_EQUAL,
        BECOMES_SUCH_THAT,
        WITNESS,
        VARIANT,
    ];
    let last = |tag| draft.formulas.iter().rfind(|one| one.tag == tag);
    let places: Vec<Place> = tags.into_iter().filter_map(last).map(place).collect();
    deep_in(&draft, &places)
}

/// Refused by 1 to 4: the most rows that check 1 passes, one more, and a row above its limit after all others.
fn most_rows() -> Vec<Group> {
    let most = Table::MOST_BYTES / ROW_BYTES;
    let nodes = |count| vec![Row::new(20, TOP, 0, 0); count];
    let ending = |tag| {
        let mut rows = nodes(most - 1);
        rows.push(Row::new(tag, 1, 0, 0));
        bytes_of(&rows)
    };
    let mut column = bytes_of(&nodes(most));
    column[most * ROW_BYTES - 2] = b'x';
    let tags = [10, 20, 30, 31, 32, 40, 50, 51, 52, 60, 70];
    let row = |place: usize| Row::new(tags[place * tags.len() / most], 1, 0, 0);
    let every_tag: Vec<Row> = (0..most).map(row).collect();
    let mut variants = every_limit().rows(&mut Random::new(1));
    variants.push(Row::new(VARIANT, 1, 0, 0));

    let named = |words: &str, table| (format!("({words})"), table);
    let frame = named("one row too many", bytes_of(&nodes(most + 1)));
    let falling = named("falling, last row", ending(10));
    let unknown = named("unknown, last row", ending(71));
    let alone = named("nodes alone", bytes_of(&nodes(most)));
    let every_tag = named("rows of every tag", bytes_of(&every_tag));
    let variants = named("last row", bytes_of(&variants));
    vec![
        group("refused by 1", vec![frame]),
        group("refused by 2", vec![named("last row", column)]),
        group("refused by 3", vec![falling, unknown]),
        group("refused by 4", vec![alone, every_tag, variants]),
    ]
}

/// Predicates of which each uses the one before twice, the last one at every root: refused by 9, 8 and 7.
fn shared() -> Vec<Named> {
    let mut rows = every_limit().rows(&mut Random::new(1));
    let last = Table::MOST_NODES as i32;
    let mut number = 0;
    for row in &mut rows {
        match row.tag {
            20 => {
                number += 1;
                *row = match number {
                    // for the variant
                    1 => Row::new(20, LITERAL, 7, 0),
                    2 => Row::new(20, TOP, 0, 0),
                    _ => Row::new(20, AND, number - 1, number - 1),
                };
            }
            AXIOM..=CONCRETE_INVARIANT => row.a = last,
            GUARD => row.b = last,
            BECOMES_EQUAL => *row = Row::new(BECOMES_SUCH_THAT, row.a, row.b, last),
            BECOMES_SUCH_THAT | WITNESS => row.c = last,
            _ => {}
        }
    }
    let with_variant = |words: &str, root| {
        let mut rows = rows.clone();
        rows.pop();
        rows.push(Row::new(VARIANT, root, 0, 0));
        (words.to_string(), bytes_of(&rows))
    };
    vec![
        with_variant("(use)", 1),
        with_variant("(sort, last row)", last),
        with_variant("(reference, last row)", last + 1),
    ]
}

/// Tables near every limit with this refusal, those whose refusal names the highest rows.
fn refused(number: i32) -> Vec<Named> {
    let mut found = Vec::new();
    for seed in 0..100 {
        let mut random = Random::new(seed);
        let draft = extreme(if seed % 2 == 0 { 0 } else { EXTREMES - 1 }, &mut random);
        let table = aimed(number, &draft, &mut random);
        let refusal = accept(&table).err();
        if let Some(refusal) = refusal.filter(|one| one.number == number) {
            found.push((refusal.row, table));
        }
    }
    found.sort_by_key(|one| one.0);
    let highest = found.into_iter().rev().take(4);
    let mut tables: Vec<Named> = highest
        .map(|(row, table)| (format!("(row {row})"), table))
        .collect();
    if number == 10 {
        tables.push(unseen());
    }
    tables
}

/// The last row's formula has at its deepest leaf what it may not mention.
fn unseen() -> Named {
    let mut draft = only_leaves();
    let hidden = |one: &[i32; 3]| one[0] == ABSTRACT_VARIABLE && one[1] == INTEGER;
    let found = draft.identifiers.iter().position(hidden);
    let number = found.expect("an abstract variable") as i32 + 1;
    let nodes = Table::MOST_NODES - (draft.formulas.len() - 1);
    let leaf = Tree::leaf(IDENTIFIER, number);
    let tree = Shape::Chain.tree(NEGATION, &leaf, &leaf, nodes);
    let variant = draft.formulas.iter_mut().find(|one| one.tag == VARIANT);
    variant.expect("a variant").tree = tree;
    ("(deepest leaf, last row)".to_string(), laid_out(&draft))
}
