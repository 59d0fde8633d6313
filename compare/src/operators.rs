//! Small tables that show one operator at a time: every operator, over every sort of operand, in every place where it
//! decides something. Nothing in them is random.

pub mod coverage;
pub mod frames;
pub mod wanted;

use crate::checks::accept;
use crate::formula::Sort::{Boolean, Integer, Predicate};
use crate::formula::*;
use crate::generate::tree::Tree;
use crate::table::WITNESS;
use frames::{axiom, can_fit, places, places_with_all_kinds, variable_witness, with_all_kinds};
use frames::{Place, Sheet, KINDS};

/// An operator, the sorts of its operands, and the sort that it makes.
#[derive(Clone, Copy, Debug)]
pub struct Shape {
    pub operator: i32,
    pub takes: &'static [Sort],
    pub makes: Sort,
}

const fn shape(operator: i32, takes: &'static [Sort], makes: Sort) -> Shape {
    Shape {
        operator,
        takes,
        makes,
    }
}

/// The paper's operators in its order; 2, 3 and 20 stand twice, with integers and with booleans.
pub const SHAPES: [Shape; 25] = [
    shape(LITERAL, &[], Integer),
    shape(IDENTIFIER, &[], Integer),
    shape(IDENTIFIER, &[], Boolean),
    shape(AFTER, &[], Integer),
    shape(AFTER, &[], Boolean),
    shape(TRUE, &[], Boolean),
    shape(FALSE, &[], Boolean),
    shape(BOOL, &[Predicate], Boolean),
    shape(PLUS, &[Integer, Integer], Integer),
    shape(MINUS, &[Integer, Integer], Integer),
    shape(TIMES, &[Integer, Integer], Integer),
    shape(DIVIDE, &[Integer, Integer], Integer),
    shape(MOD, &[Integer, Integer], Integer),
    shape(NEGATION, &[Integer], Integer),
    shape(EQUAL, &[Integer, Integer], Predicate),
    shape(EQUAL, &[Boolean, Boolean], Predicate),
    shape(LESS, &[Integer, Integer], Predicate),
    shape(AT_MOST, &[Integer, Integer], Predicate),
    shape(TOP, &[], Predicate),
    shape(BOTTOM, &[], Predicate),
    shape(NOT, &[Predicate], Predicate),
    shape(AND, &[Predicate, Predicate], Predicate),
    shape(OR, &[Predicate, Predicate], Predicate),
    shape(IMPLIES, &[Predicate, Predicate], Predicate),
    shape(EQUIVALENT, &[Predicate, Predicate], Predicate),
];

/// What an operator takes and makes, if it is the paper's; of two that stand for it, the first.
pub fn shape_of(operator: i32) -> Option<&'static Shape> {
    SHAPES.iter().find(|shape| shape.operator == operator)
}

pub const SORTS: [Sort; 3] = [Integer, Boolean, Predicate];

/// Numbers in the place of an operator: those around the paper's, and the ends of the number form.
pub fn operator_numbers() -> impl Iterator<Item = i32> {
    (-1..=45).chain([i32::MAX, i32::MIN])
}

/// The parts of the family.
pub const PARTS: [fn() -> Vec<Vec<u8>>; 9] = [
    column_tables,
    mention_tables,
    hidden_tables,
    use_tables,
    root_tables,
    operand_tables,
    pair_tables,
    nested_tables,
    beside_division_tables,
];

/// All tables, each once.
pub fn family() -> Vec<Vec<u8>> {
    let mut tables: Vec<Vec<u8>> = PARTS.iter().flat_map(|part| part()).collect();
    tables.sort();
    tables.dedup();
    tables
}

/// The operators with operands; 20 stands twice.
fn with_operands() -> impl Iterator<Item = &'static Shape> {
    SHAPES.iter().filter(|shape| !shape.takes.is_empty())
}

/// What a column of a node holds.
#[derive(Clone, Copy)]
enum Held {
    Number(i32),
    /// An earlier node of this sort.
    Node(Sort),
    Itself,
    /// The node after it.
    Next,
}

const HELD: [Held; 17] = [
    Held::Number(0),
    Held::Node(Integer),
    Held::Node(Boolean),
    Held::Node(Predicate),
    Held::Itself,
    Held::Next,
    // Identifiers: variables, constants, a parameter.
    Held::Number(3),
    Held::Number(5),
    Held::Number(6),
    Held::Number(7),
    Held::Number(8),
    Held::Number(9),
    // A later node that has no identifier's number, and numbers of nothing.
    Held::Number(KINDS + 1),
    Held::Number(99),
    Held::Number(-1),
    Held::Number(i32::MAX),
    Held::Number(i32::MIN),
];

/// Every operator number with all that its columns can hold, the same node twice included.
pub fn column_tables() -> Vec<Vec<u8>> {
    let place = with_all_kinds([WITNESS, 4, 3]);
    let mut tables = Vec::new();
    for operator in operator_numbers() {
        for b in HELD {
            for c in HELD.map(Some).into_iter().chain([None]) {
                tables.push(place.with(|sheet| held(sheet, &place, operator, b, c)));
            }
        }
    }
    tables
}

/// A node whose columns hold these, as a predicate if its sort is known. Without c, its number is that of b.
fn held(sheet: &mut Sheet, place: &Place, operator: i32, b: Held, c: Option<Held>) -> i32 {
    let shape = shape_of(operator);
    let mut made = Vec::new();
    for (column, held) in [Some(b), c].into_iter().enumerate() {
        if let Some(Held::Node(sort)) = held {
            made.push((column, sort, sheet.plant(&plain(place, sort, column))));
        }
    }
    let own = sheet.next();
    let number = |column: usize, held: Held| match held {
        Held::Number(number) => number,
        Held::Itself => own,
        Held::Next => own + 1,
        Held::Node(_) => made
            .iter()
            .find(|one| one.0 == column)
            .map_or(0, |one| one.2),
    };
    let b = number(0, b);
    let c = c.map_or(b, |c| number(1, c));
    let node = sheet.node(operator, b, c);
    let operands = shape.map_or(0, |shape| shape.takes.len());
    for (_, sort, unused) in made.into_iter().filter(|one| one.0 >= operands) {
        sheet.park(unused, sort);
    }
    let makes = match operator {
        IDENTIFIER | AFTER => place.sort_of(b),
        _ => shape.map(|shape| shape.makes),
    };
    sheet.fit(node, makes.unwrap_or(Predicate), Predicate)
}

/// Operators 2 and 3 with an identifier of each kind and type, in each sort of row.
pub fn mention_tables() -> Vec<Vec<u8>> {
    let mut tables = Vec::new();
    for place in places_with_all_kinds() {
        for operator in [IDENTIFIER, AFTER] {
            for identifier in 1..=KINDS {
                let sort = place.sort_of(identifier).unwrap_or(Integer);
                tables.push(place.with(|sheet| {
                    let node = sheet.node(operator, identifier, 0);
                    sheet.fit(node, sort, place.takes)
                }));
            }
        }
    }
    tables
}

/// A value that an axiom may not mention, below every operator, on either side.
pub fn hidden_tables() -> Vec<Vec<u8>> {
    let place = axiom();
    let mut tables = Vec::new();
    for above in with_operands() {
        for (side, &sort) in above.takes.iter().enumerate() {
            for operator in [IDENTIFIER, AFTER] {
                let [integer, boolean] = place.after.map(|number| Tree::leaf(operator, number));
                let mut whole = example(&place, above, plain);
                whole.operands[side] = match sort {
                    Integer => integer,
                    Boolean => boolean,
                    Predicate => Tree::two(EQUAL, boolean, Tree::leaf(TRUE, 0)),
                };
                tables.push(fitted(&place, &whole, above.makes));
            }
        }
    }
    tables
}

/// Every operator without a use, and every operand with a second one.
pub fn use_tables() -> Vec<Vec<u8>> {
    let place = axiom();
    let mut tables = Vec::new();
    for shape in &SHAPES {
        let tree = example(&place, shape, plain);
        tables.push(place.with(|sheet| {
            sheet.plant(&tree);
            sheet.node(TOP, 0, 0)
        }));
        for (side, &sort) in shape.takes.iter().enumerate() {
            tables.push(place.with(|sheet| {
                let root = sheet.plant(&tree);
                // Operands that are leaves stand just before their node.
                let operand = root - (shape.takes.len() - side) as i32;
                sheet.park(operand, sort);
                sheet.fit(root, shape.makes, place.takes)
            }));
        }
    }
    tables
}

/// Every operator over operands of every sort, as a root in each sort of row.
pub fn root_tables() -> Vec<Vec<u8>> {
    let tables = |place: &Place| -> Vec<Vec<u8>> {
        let trees = of_every_sort(place).into_iter();
        trees.map(|tree| place.table(&tree)).collect()
    };
    places().iter().flat_map(tables).collect()
}

/// The same below every operator, on either side.
pub fn operand_tables() -> Vec<Vec<u8>> {
    let place = variable_witness();
    let mut tables = Vec::new();
    for above in with_operands() {
        for side in 0..above.takes.len() {
            for tree in of_every_sort(&place) {
                let mut whole = example(&place, above, plain);
                whole.operands[side] = tree;
                tables.push(fitted(&place, &whole, above.makes));
            }
        }
    }
    tables
}

/// Every operator beside every other below each pair.
pub fn pair_tables() -> Vec<Vec<u8>> {
    let place = variable_witness();
    let mut tables = Vec::new();
    for above in pair_shapes() {
        for left in &SHAPES {
            for right in &SHAPES {
                let left = example(&place, left, plain);
                let right = example(&place, right, plain);
                let whole = Tree::two(above.operator, left, right);
                tables.push(fitted(&place, &whole, above.makes));
            }
        }
    }
    tables
}

/// The pairs, each once.
fn pair_shapes() -> impl Iterator<Item = &'static Shape> {
    let pairs = with_operands().filter(|shape| shape.takes.len() == 2);
    pairs.filter(|shape| shape.takes[0] != Boolean)
}

/// Every operator with operands over every other, on either side, in each sort of row, over leaves and over formulas with
/// ÷ and mod. All are accepted.
pub fn nested_tables() -> Vec<Vec<u8>> {
    let mut tables = Vec::new();
    for place in places() {
        for above in with_operands().filter(|above| can_fit(above.makes, place.takes)) {
            for (side, &wanted) in above.takes.iter().enumerate() {
                for below in with_operands().filter(|below| below.makes == wanted) {
                    for leaf in [plain, dividing] {
                        let mut whole = example(&place, above, leaf);
                        whole.operands[side] = example(&place, below, leaf);
                        tables.push(fitted(&place, &whole, above.makes));
                    }
                }
            }
        }
    }
    tables
}

/// Every operator over leaves beside a formula with ÷ or mod, on either side, in each sort of row: WD is made for the other
/// side's sake, and has the operator's shape in it. All are accepted.
pub fn beside_division_tables() -> Vec<Vec<u8>> {
    let mut tables = Vec::new();
    for place in places() {
        let (operator, sort) = match place.takes {
            Integer => (PLUS, Integer),
            _ => (AND, Predicate),
        };
        let shapes = SHAPES.iter();
        for shape in shapes.filter(|shape| can_fit(shape.makes, sort)) {
            let tree = example(&place, shape, plain);
            let tree = below(tree, shape.makes, sort);
            let left = Tree::two(operator, tree.clone(), dividing(&place, sort, 1));
            let right = Tree::two(operator, dividing(&place, sort, 0), tree);
            tables.extend([left, right].map(|whole| fitted(&place, &whole, sort)));
        }
    }
    // An after value isn't seen in every place.
    tables.retain(|table| accept(table).is_ok());
    tables
}

/// The tree below what makes a predicate of it, if one is wanted.
fn below(tree: Tree, makes: Sort, wanted: Sort) -> Tree {
    match (makes, wanted) {
        (Integer, Predicate) => Tree::two(AT_MOST, tree, Tree::leaf(LITERAL, 1)),
        (Boolean, Predicate) => Tree::two(EQUAL, tree, Tree::leaf(TRUE, 0)),
        _ => tree,
    }
}

/// The tree as the place's formula, below what makes its sort the place's.
fn fitted(place: &Place, tree: &Tree, makes: Sort) -> Vec<u8> {
    place.with(|sheet| {
        let root = sheet.plant(tree);
        sheet.fit(root, makes, place.takes)
    })
}

/// Every leaf, and every operator over leaves of all sorts, fitting or not.
fn of_every_sort(place: &Place) -> Vec<Tree> {
    let leaves = SHAPES.iter().filter(|shape| shape.takes.is_empty());
    let mut trees: Vec<Tree> = leaves.map(|shape| example(place, shape, plain)).collect();
    for left in SORTS {
        let ones = with_operands().filter(|shape| shape.takes.len() == 1);
        trees.extend(ones.map(|shape| Tree::one(shape.operator, plain(place, left, 0))));
        for right in SORTS {
            let sides = [plain(place, left, 0), plain(place, right, 1)];
            trees.extend(pair_shapes().map(|shape| {
                let [left, right] = sides.clone();
                Tree::two(shape.operator, left, right)
            }));
        }
    }
    trees
}

/// Makes an operand of this sort for a side.
type Operand = fn(&Place, Sort, usize) -> Tree;

/// The operator over fitting operands.
fn example(place: &Place, shape: &Shape, operand: Operand) -> Tree {
    let identifiers = |two: [i32; 2]| two[usize::from(shape.makes == Boolean)];
    let value = match shape.operator {
        LITERAL => -40,
        IDENTIFIER => identifiers(place.present),
        AFTER => identifiers(place.after),
        _ => 0,
    };
    let sides = shape.takes.iter().enumerate();
    let operands = sides.map(|(side, &sort)| operand(place, sort, side));
    Tree {
        operator: shape.operator,
        value,
        operands: operands.collect(),
    }
}

/// A leaf, another one on each side.
fn plain(place: &Place, sort: Sort, side: usize) -> Tree {
    let [integer, boolean] = place.present;
    match (sort, side) {
        (Integer, 0) => Tree::leaf(IDENTIFIER, integer),
        (Integer, _) => Tree::leaf(LITERAL, 7),
        (Boolean, 0) => Tree::leaf(IDENTIFIER, boolean),
        (Boolean, _) => Tree::leaf(FALSE, 0),
        (Predicate, 0) => Tree::leaf(TOP, 0),
        (Predicate, _) => Tree::leaf(BOTTOM, 0),
    }
}

/// A formula with ÷ on the left, with mod on the right.
fn dividing(place: &Place, sort: Sort, side: usize) -> Tree {
    let integer = Tree::leaf(IDENTIFIER, place.present[0]);
    let number = |value| Tree::leaf(LITERAL, value);
    match (sort, side) {
        (Integer, 0) => Tree::two(DIVIDE, integer, number(3)),
        (Integer, _) => Tree::two(MOD, number(5), integer),
        (Boolean, _) => Tree::one(BOOL, dividing(place, Predicate, side)),
        (Predicate, 0) => Tree::two(LESS, dividing(place, Integer, side), number(1)),
        (Predicate, _) => Tree::two(AT_MOST, number(2), dividing(place, Integer, side)),
    }
}
