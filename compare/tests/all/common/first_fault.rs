//! The first fault of a formula, by one walk over its nodes in reading order: operands from the left, then their operator. It has
//! nothing of the evaluation that is tested.

use compare::formula::*;
use compare::replay::{OUTSIDE, UNDEFINED};
use compare::table::Node;

/// Values of identifiers by number less one, before and after a step.
pub type Values = ([i128; 64], [i128; 64]);

/// What is still to be done with a node.
enum Task {
    Read(i32),
    /// The left side of a connective has its value, which may be enough.
    Choose(i32),
    Apply(i32),
}

/// The value of the formula, or the number of the fault that the walk meets first.
pub fn walk(nodes: &[Node], root: i32, values: &Values) -> Result<i128, i32> {
    let mut tasks = vec![Task::Read(root)];
    let mut stack = Vec::new();
    while let Some(task) = tasks.pop() {
        let (Task::Read(number) | Task::Choose(number) | Task::Apply(number)) = task;
        let node = nodes[number as usize - 1];
        match task {
            Task::Read(_) => match leaf(node, values) {
                Some(value) => stack.push(value),
                None => tasks.extend(first_tasks(number, node)),
            },
            Task::Choose(_) => {
                let left = stack.pop().expect("a left side");
                match (node.operator, left) {
                    (AND, 0) => stack.push(0),
                    (OR, 1) | (IMPLIES, 0) => stack.push(1),
                    _ => {
                        stack.push(left);
                        tasks.extend([Task::Apply(number), Task::Read(node.c)]);
                    }
                }
            }
            Task::Apply(_) => {
                let last = stack.pop().expect("an operand");
                let value = match node.operator {
                    BOOL | NOT | NEGATION => one_operand(node.operator, last)?,
                    _ => two_operands(node.operator, stack.pop().expect("a left one"), last)?,
                };
                stack.push(value);
            }
        }
    }
    Ok(stack.pop().expect("a value"))
}

fn leaf(Node { operator, b, .. }: Node, (now, after): &Values) -> Option<i128> {
    match operator {
        LITERAL => Some(i128::from(b)),
        IDENTIFIER => Some(now[b as usize - 1]),
        AFTER => Some(after[b as usize - 1]),
        TRUE | TOP => Some(1),
        FALSE | BOTTOM => Some(0),
        _ => None,
    }
}

/// What is to be done with an operator and its operands, the first last.
fn first_tasks(number: i32, Node { operator, b, c, .. }: Node) -> Vec<Task> {
    match operator {
        BOOL | NOT | NEGATION => vec![Task::Apply(number), Task::Read(b)],
        AND..=EQUIVALENT => vec![Task::Choose(number), Task::Read(b)],
        _ => vec![Task::Apply(number), Task::Read(c), Task::Read(b)],
    }
}

fn one_operand(operator: i32, value: i128) -> Result<i128, i32> {
    match operator {
        NOT => Ok(1 - value),
        NEGATION => in_64_bits(-value),
        _ => Ok(value),
    }
}

fn two_operands(operator: i32, a: i128, b: i128) -> Result<i128, i32> {
    match operator {
        PLUS => in_64_bits(a + b),
        MINUS => in_64_bits(a - b),
        TIMES => in_64_bits(a * b),
        DIVIDE if b == 0 => Err(UNDEFINED),
        DIVIDE => in_64_bits(a / b),
        MOD if a >= 0 && b > 0 => Ok(a - b * (a / b)),
        MOD => Err(UNDEFINED),
        EQUAL | EQUIVALENT => Ok(i128::from(a == b)),
        LESS => Ok(i128::from(a < b)),
        AT_MOST => Ok(i128::from(a <= b)),
        // ∧, ∨ and ⇒ read their right side only where it decides.
        _ => Ok(b),
    }
}

fn in_64_bits(exact: i128) -> Result<i128, i32> {
    i64::try_from(exact).map(i128::from).or(Err(OUTSIDE))
}
