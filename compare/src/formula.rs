//! Nodes and the trees they make: sorts, mentions, well-definedness and spelling.

use crate::table::{Node, Table, INTEGER};

pub const LITERAL: i32 = 1;
pub const IDENTIFIER: i32 = 2;
pub const AFTER: i32 = 3;
pub const TRUE: i32 = 4;
pub const FALSE: i32 = 5;
pub const BOOL: i32 = 6;
pub const PLUS: i32 = 10;
pub const MINUS: i32 = 11;
pub const TIMES: i32 = 12;
pub const DIVIDE: i32 = 13;
pub const MOD: i32 = 14;
pub const NEGATION: i32 = 15;
pub const EQUAL: i32 = 20;
pub const LESS: i32 = 21;
pub const AT_MOST: i32 = 22;
pub const TOP: i32 = 30;
pub const BOTTOM: i32 = 31;
pub const NOT: i32 = 32;
pub const AND: i32 = 33;
pub const OR: i32 = 34;
pub const IMPLIES: i32 = 35;
pub const EQUIVALENT: i32 = 36;
pub const SOME_VALUE: i32 = 40;
pub const SOME_AFTER_VALUE: i32 = 41;

/// What columns b and c of a node hold.
#[derive(Clone, Copy, Debug, PartialEq, Eq)]
pub enum Columns {
    Nothing,
    Value,
    Identifier,
    Variable,
    OneOperand,
    TwoOperands,
}

/// What a node makes.
#[derive(Clone, Copy, Debug, PartialEq, Eq, PartialOrd, Ord)]
pub enum Sort {
    Integer,
    Boolean,
    Predicate,
}

/// The columns that an operator uses, or nothing if it is unknown.
pub fn columns(operator: i32) -> Option<Columns> {
    match operator {
        LITERAL => Some(Columns::Value),
        IDENTIFIER => Some(Columns::Identifier),
        AFTER => Some(Columns::Variable),
        TRUE | FALSE | TOP | BOTTOM => Some(Columns::Nothing),
        BOOL | NEGATION | NOT => Some(Columns::OneOperand),
        PLUS..=MOD | EQUAL..=AT_MOST | AND..=EQUIVALENT => Some(Columns::TwoOperands),
        _ => None,
    }
}

/// The node's operands, as node numbers.
pub fn operands(node: Node) -> Vec<i32> {
    match columns(node.operator) {
        Some(Columns::OneOperand) => vec![node.b],
        Some(Columns::TwoOperands) => vec![node.b, node.c],
        _ => vec![],
    }
}

/// The sort of an identifier's value.
pub fn sort_of_identifier(table: &Table, number: i32) -> Sort {
    match table.identifier(number) {
        Some(identifier) if identifier.type_number == INTEGER => Sort::Integer,
        _ => Sort::Boolean,
    }
}

/// The sort that a node makes; its operator alone decides, and the type of its identifier.
pub fn sort(table: &Table, node: Node) -> Sort {
    match node.operator {
        IDENTIFIER | AFTER => sort_of_identifier(table, node.b),
        LITERAL | PLUS..=NEGATION => Sort::Integer,
        TRUE | FALSE | BOOL => Sort::Boolean,
        _ => Sort::Predicate,
    }
}

/// Whether the node's operands have the sorts that its operator takes.
pub fn operands_fit(table: &Table, node: Node) -> bool {
    let sorts: Vec<Sort> = operands(node)
        .into_iter()
        .filter_map(|operand| table.node(operand))
        .map(|operand| sort(table, operand))
        .collect();
    match node.operator {
        PLUS..=NEGATION | LESS | AT_MOST => sorts.iter().all(|&one| one == Sort::Integer),
        EQUAL => sorts[0] == sorts[1] && sorts[0] != Sort::Predicate,
        _ => sorts.iter().all(|&one| one == Sort::Predicate),
    }
}

/// The identifier and after-value nodes of a tree, in prefix order.
/// Only for trees in which no node is shared.
pub fn mentions(table: &Table, root: i32) -> Vec<Node> {
    let mut found = Vec::new();
    collect_mentions(table, root, &mut found);
    found
}

fn collect_mentions(table: &Table, root: i32, found: &mut Vec<Node>) {
    let node = table.nodes[root as usize - 1];
    if node.operator == IDENTIFIER || node.operator == AFTER {
        found.push(node);
    }
    for operand in operands(node) {
        collect_mentions(table, operand, found);
    }
}

/// One place of a spelled formula: the operator, and b of operators 1 to 3, 40 and 41.
#[derive(Clone, Copy, Debug, PartialEq, Eq)]
pub struct Symbol {
    pub operator: i32,
    pub b: i32,
}

impl Symbol {
    pub fn new(operator: i32, b: i32) -> Symbol {
        Symbol { operator, b }
    }
}

/// An operator without a number.
pub fn bare(operator: i32) -> Symbol {
    Symbol::new(operator, 0)
}

/// Spells the tree in prefix order, as written.
pub fn spell(table: &Table, root: i32, out: &mut Vec<Symbol>) {
    spell_tree(table, root, false, out);
}

/// Spells the tree in prefix order with every variable at its after value.
pub fn spell_after(table: &Table, root: i32, out: &mut Vec<Symbol>) {
    spell_tree(table, root, true, out);
}

fn spell_tree(table: &Table, root: i32, after: bool, out: &mut Vec<Symbol>) {
    let node = table.nodes[root as usize - 1];
    match node.operator {
        LITERAL | AFTER => out.push(Symbol::new(node.operator, node.b)),
        IDENTIFIER => {
            let variable = table.identifiers[node.b as usize - 1].is_variable();
            let operator = if after && variable { AFTER } else { IDENTIFIER };
            out.push(Symbol::new(operator, node.b));
        }
        _ => out.push(bare(node.operator)),
    }
    for operand in operands(node) {
        spell_tree(table, operand, after, out);
    }
}

/// Spells the well-definedness of the tree.
pub fn spell_well_definedness(table: &Table, root: i32, out: &mut Vec<Symbol>) {
    let node = table.nodes[root as usize - 1];
    let Node { operator, b, c, .. } = node;
    match operator {
        LITERAL..=FALSE | TOP | BOTTOM => out.push(bare(TOP)),
        NEGATION | NOT | BOOL => spell_well_definedness(table, b, out),
        DIVIDE => {
            out.push(bare(AND));
            both_well_defined(table, b, c, out);
            not_zero(table, c, out);
        }
        MOD => {
            out.push(bare(AND));
            both_well_defined(table, b, c, out);
            out.push(bare(AND));
            above_zero(table, AT_MOST, b, out);
            above_zero(table, LESS, c, out);
        }
        AND | IMPLIES => right_where_left(table, IMPLIES, node, out),
        OR => right_where_left(table, OR, node, out),
        _ => both_well_defined(table, b, c, out),
    }
}

/// WD(a) ∧ WD(b)
fn both_well_defined(table: &Table, a: i32, b: i32, out: &mut Vec<Symbol>) {
    out.push(bare(AND));
    spell_well_definedness(table, a, out);
    spell_well_definedness(table, b, out);
}

/// ¬(a = 0)
fn not_zero(table: &Table, a: i32, out: &mut Vec<Symbol>) {
    out.extend([bare(NOT), bare(EQUAL)]);
    spell(table, a, out);
    out.push(Symbol::new(LITERAL, 0));
}

/// 0 ≤ a or 0 < a, by the operator.
fn above_zero(table: &Table, operator: i32, a: i32, out: &mut Vec<Symbol>) {
    out.extend([bare(operator), Symbol::new(LITERAL, 0)]);
    spell(table, a, out);
}

/// WD(P) ∧ (P operator WD(Q))
fn right_where_left(table: &Table, operator: i32, node: Node, out: &mut Vec<Symbol>) {
    out.push(bare(AND));
    spell_well_definedness(table, node.b, out);
    out.push(bare(operator));
    spell(table, node.b, out);
    spell_well_definedness(table, node.c, out);
}
