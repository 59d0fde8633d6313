//! What tables show of each operator, by reading them.

use super::shape_of;
use crate::checks::{accept, may_mention, Refusal, REFERENCE, SIGHT, SORT, USE};
use crate::formula::*;
use crate::sequents::{sequents, Entry, Sequent, WD};
use crate::shrink::rows_of;
use crate::table::*;
use std::collections::BTreeSet;

/// Something that a table shows. Columns and sides are counted from 0; a table is accepted where no refusal is named.
#[derive(Clone, Debug, PartialEq, Eq, PartialOrd, Ord)]
pub enum Case {
    /// The operator over operands of these sorts.
    Takes { operator: i32, sorts: Vec<Sort> },
    /// Refused by 8 at its row, with operands of these sorts.
    Misfit { operator: i32, sorts: Vec<Sort> },
    /// The operator on this side of the one above, in a formula of such a row.
    Below {
        operator: i32,
        side: usize,
        above: i32,
        row: Named,
    },
    /// The one operator on the left and the other on the right of the one above.
    Beside { left: i32, right: i32, above: i32 },
    /// The operator with ÷ or mod below each of its operands.
    Divides { operator: i32 },
    /// The operator making this sort, as the root of such a row: 0, or 8 or 10 at that row.
    Root {
        operator: i32,
        makes: Sort,
        row: Named,
        reply: i32,
    },
    /// Refused by 10 for one operator 2 or 3 below this side.
    Hidden {
        operator: i32,
        side: usize,
        mention: i32,
    },
    /// Operator 2 or 3 with an identifier of this kind and type: 0, or 7 or 10 for it alone.
    Mention {
        operator: i32,
        kind: i32,
        type_number: i32,
        reply: i32,
    },
    /// Refused by 9 at its row, for it has no use.
    Unused { operator: i32 },
    /// Refused by 9 at the row of its operand on this side, which another row uses too.
    Twice { operator: i32, side: usize },
    /// The operator in the formula of an entry of this form.
    Spelled { operator: i32, form: i32 },
    /// The operator in a formula of such a row that has ÷ or mod: WD of it is in the list.
    Defined { operator: i32, row: Named },
    /// The operator in a formula of such a row that has neither: WD of it isn't in the list.
    LeftOut { operator: i32, row: Named },
    /// Refused by 7 at its row.
    Unknown { operator: i32 },
    /// Refused by 7 at its row, for this column alone.
    Column {
        operator: i32,
        column: usize,
        holds: Holds,
    },
}

/// The tag of a row that names a root, and the sort that it takes.
pub type Named = (i32, Sort);

/// A number in a column of a node that doesn't fit.
#[derive(Clone, Copy, Debug, PartialEq, Eq, PartialOrd, Ord)]
pub enum Holds {
    Zero,
    Negative,
    Itself,
    LaterNode,
    /// Too large for any node, or for any identifier where one is asked for.
    Nothing,
    /// A constant or a parameter where a variable is asked for.
    NoVariable,
    /// A number in a column that isn't used.
    Something,
}

/// What these tables show.
pub fn shown(tables: &[Vec<u8>]) -> BTreeSet<Case> {
    let mut cases = BTreeSet::new();
    for bytes in tables {
        let table = Table::new(rows_of(bytes).unwrap_or_default());
        match accept(bytes) {
            Ok(_) => add_accepted(&table, &mut cases),
            Err(refusal) => add_refused(&table, refusal, &mut cases),
        }
    }
    cases
}

/// The sort that a node makes, by the paper's list.
fn makes(table: &Table, node: Node) -> Option<Sort> {
    match node.operator {
        IDENTIFIER | AFTER => Some(sort_of_identifier(table, node.b)),
        operator => shape_of(operator).map(|shape| shape.makes),
    }
}

/// The sorts of a node's operands.
fn sorts(table: &Table, node: Node) -> Vec<Sort> {
    let operands = operands(node).into_iter();
    let nodes = operands.filter_map(|operand| table.node(operand));
    nodes.filter_map(|operand| makes(table, operand)).collect()
}

fn add_accepted(table: &Table, cases: &mut BTreeSet<Case>) {
    let all = table.nodes.iter();
    cases.extend(all.filter_map(|&node| mention(table, node, 0)));
    let list = sequents(table);
    for formula in &table.formulas {
        cases.extend(root(table, *formula, 0));
        add_tree(table, named(table, *formula), formula.root, cases);
        cases.extend(definedness(table, *formula, &list));
    }
    for sequent in list {
        for entry in sequent.entries() {
            let form = entry.form;
            let operators = root_of(table, entry).map(|root| operators(table, root));
            for operator in operators.unwrap_or_default() {
                cases.insert(Case::Spelled { operator, form });
            }
        }
    }
}

fn add_tree(table: &Table, row: Named, root: i32, cases: &mut BTreeSet<Case>) {
    let node = table.nodes[root as usize - 1];
    let Node { operator, .. } = node;
    let sorts = sorts(table, node);
    cases.insert(Case::Takes { operator, sorts });
    let operands = operands(node);
    let divides = |&operand: &i32| {
        let below = operators(table, operand);
        below.contains(&DIVIDE) || below.contains(&MOD)
    };
    if !operands.is_empty() && operands.iter().all(divides) {
        cases.insert(Case::Divides { operator });
    }
    let below: Vec<i32> = operands
        .iter()
        .map(|&operand| table.nodes[operand as usize - 1].operator)
        .collect();
    if let [left, right] = below[..] {
        cases.insert(Case::Beside {
            left,
            right,
            above: operator,
        });
    }
    for (side, &operand) in operands.iter().enumerate() {
        cases.insert(Case::Below {
            operator: below[side],
            side,
            above: operator,
            row,
        });
        add_tree(table, row, operand, cases);
    }
}

/// What the formula shows of WD: made for ÷ and mod, left out without them. What is otherwise shows nothing.
fn definedness(table: &Table, formula: Formula, list: &[Sequent]) -> Vec<Case> {
    let operators = operators(table, formula.root);
    let divides = operators.contains(&DIVIDE) || operators.contains(&MOD);
    let is_its = |one: &Sequent| one.kind == WD && one.item == formula.root;
    let row = named(table, formula);
    let case = |operator| match divides {
        true => Case::Defined { operator, row },
        false => Case::LeftOut { operator, row },
    };
    let as_it_should = list.iter().any(is_its) == divides;
    let shown = operators.into_iter().filter(|_| as_it_should);
    shown.map(case).collect()
}

/// Operator 2 or 3 with an identifier, answered so.
fn mention(table: &Table, node: Node, reply: i32) -> Option<Case> {
    let Node { operator, b, c, .. } = node;
    let found = table.identifier(b)?;
    let mentions = (operator == IDENTIFIER || operator == AFTER) && c == 0;
    mentions.then_some(Case::Mention {
        operator,
        kind: found.kind,
        type_number: found.type_number,
        reply,
    })
}

fn named(table: &Table, formula: Formula) -> Named {
    let takes = match formula.tag {
        BECOMES_EQUAL => sort_of_identifier(table, formula.identifier),
        VARIANT => Sort::Integer,
        _ => Sort::Predicate,
    };
    (formula.tag, takes)
}

/// The root of a row that was answered so.
fn root(table: &Table, formula: Formula, reply: i32) -> Option<Case> {
    let node = table.node(formula.root)?;
    Some(Case::Root {
        operator: node.operator,
        makes: makes(table, node)?,
        row: named(table, formula),
        reply,
    })
}

/// The root of the formula that an entry is about; "after equals before" has none.
fn root_of(table: &Table, entry: Entry) -> Option<i32> {
    let (first, second) = (entry.first, entry.second);
    match entry.form {
        4 | 5 => table.action(first, second).map(|action| action.root),
        6 => {
            let mut witnesses = table.witnesses(first);
            let witness = witnesses.find(|witness| witness.identifier == second)?;
            Some(witness.root)
        }
        10 => None,
        _ => Some(first),
    }
}

/// The operators of a tree.
fn operators(table: &Table, root: i32) -> BTreeSet<i32> {
    let node = table.nodes[root as usize - 1];
    let below = operands(node).into_iter();
    let mut found: BTreeSet<i32> = below.flat_map(|one| operators(table, one)).collect();
    found.insert(node.operator);
    found
}

fn add_refused(table: &Table, refusal: Refusal, cases: &mut BTreeSet<Case>) {
    let here = |row: usize| row == refusal.row;
    let formula = table.formulas.iter().find(|one| here(one.row));
    let place = table.nodes.iter().position(|node| here(node.row));
    match (refusal.number, formula, place) {
        (REFERENCE, _, Some(place)) => {
            cases.extend(bad_node(table, place));
            cases.extend(mention(table, table.nodes[place], REFERENCE));
        }
        (SORT, _, Some(place)) => {
            let node = table.nodes[place];
            let (operator, sorts) = (node.operator, sorts(table, node));
            cases.insert(Case::Misfit { operator, sorts });
        }
        (SORT, Some(formula), _) => cases.extend(root(table, *formula, SORT)),
        (USE, _, Some(place)) => cases.extend(bad_use(table, place as i32 + 1)),
        (SIGHT, Some(formula), _) => {
            cases.extend(root(table, *formula, SIGHT));
            cases.extend(hidden(table, *formula));
        }
        _ => {}
    }
}

/// What a node refused by 9 shows: one without a use, or with one in each of two rows.
fn bad_use(table: &Table, number: i32) -> Vec<Case> {
    let mut above = Vec::new();
    for node in &table.nodes {
        let sides = operands(*node).into_iter().enumerate();
        let uses = sides.filter(|&(_, operand)| operand == number);
        above.extend(uses.map(|(side, _)| (node.row, node.operator, side)));
    }
    let roots = table.formulas.iter().filter(|one| one.root == number);
    let uses = above.len() + roots.count();
    if uses == 0 {
        let Node { operator, .. } = table.nodes[number as usize - 1];
        return vec![Case::Unused { operator }];
    }
    let rows: BTreeSet<usize> = above.iter().map(|one| one.0).collect();
    if uses > 2 || rows.len() < above.len() {
        return vec![];
    }
    let sides = above.into_iter();
    sides
        .map(|(_, operator, side)| Case::Twice { operator, side })
        .collect()
}

/// The one value that a formula may not mention, and all that stands above it.
fn hidden(table: &Table, formula: Formula) -> Vec<Case> {
    let all = mentions(table, formula.root).into_iter();
    let bad: Vec<Node> = all
        .filter(|&node| !may_mention(table, formula, node))
        .collect();
    let [node] = bad[..] else {
        return vec![];
    };
    let mut cases = Vec::from_iter(mention(table, node, SIGHT));
    let mut row = node.row;
    while let Some((above, side)) = user(table, row) {
        cases.push(Case::Hidden {
            operator: above.operator,
            side,
            mention: node.operator,
        });
        row = above.row;
    }
    cases
}

/// The node that has the one in this row as an operand, and on which side.
fn user(table: &Table, row: usize) -> Option<(Node, usize)> {
    let number = table.nodes.iter().position(|node| node.row == row)? as i32 + 1;
    let side = |node: &Node| operands(*node).iter().position(|&one| one == number);
    let mut users = table
        .nodes
        .iter()
        .filter_map(|node| Some((*node, side(node)?)));
    users.next()
}

/// What a node refused by 7 shows: an unknown operator, or the one column that doesn't fit.
fn bad_node(table: &Table, place: usize) -> Option<Case> {
    let node = table.nodes[place];
    let Node { operator, b, c, .. } = node;
    if shape_of(operator).is_none() {
        return Some(Case::Unknown { operator });
    }
    let bad = [b, c].into_iter().enumerate().map(|(column, number)| {
        let holds = misfit(table, place as i32 + 1, operator, column, number)?;
        Some(Case::Column {
            operator,
            column,
            holds,
        })
    });
    let mut bad = bad.flatten();
    let first = bad.next();
    first.filter(|_| bad.next().is_none())
}

/// Why a number doesn't fit its column, if it doesn't.
fn misfit(table: &Table, own: i32, operator: i32, column: usize, number: i32) -> Option<Holds> {
    let operands = shape_of(operator).map_or(0, |shape| shape.takes.len());
    match (operator, column) {
        (LITERAL, 0) => None,
        (IDENTIFIER | AFTER, 0) => {
            let bad = not_positive(number);
            let found = table.identifier(number);
            bad.or_else(|| match found {
                None => Some(Holds::Nothing),
                Some(one) => (operator == AFTER && !one.is_variable()).then_some(Holds::NoVariable),
            })
        }
        _ if column < operands => not_positive(number).or_else(|| not_earlier(table, own, number)),
        _ => (number != 0).then_some(Holds::Something),
    }
}

fn not_positive(number: i32) -> Option<Holds> {
    match number {
        0 => Some(Holds::Zero),
        ..0 => Some(Holds::Negative),
        _ => None,
    }
}

fn not_earlier(table: &Table, own: i32, number: i32) -> Option<Holds> {
    if number < own {
        None
    } else if number == own {
        Some(Holds::Itself)
    } else if table.node(number).is_some() {
        Some(Holds::LaterNode)
    } else {
        Some(Holds::Nothing)
    }
}
