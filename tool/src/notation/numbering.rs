//! Renumbers what a text's part `numbering` names. A table that was numbered otherwise comes back byte for byte by it.

use crate::formula::operand_count;
use crate::notation::layout::Line;
use crate::notation::syntax::{Numbers, Part};
use crate::notation::Mistake;
use crate::rows::Row;
use crate::table::{tag, Table};

/// Moves the members of a part to the numbers that the list gives them, and lets every row that names one follow.
pub fn renumber(
    list: &Numbers,
    identifiers: &mut [Line],
    identifier_names: &mut [String],
    nodes: &mut [Line],
    named: &mut [(Line, String)],
) -> Result<(), Mistake> {
    match list.part {
        Part::Identifiers => {
            moved(list, identifiers)?;
            moved(list, identifier_names)?;
            let rows = nodes.iter_mut().map(|line| &mut line.row);
            let rows = rows.chain(named.iter_mut().map(|(line, _)| &mut line.row));
            for row in rows.filter(|row| names_identifier(**row)) {
                row.b = renumbered(list, row.b);
            }
        }
        Part::Nodes => {
            moved(list, nodes)?;
            for line in nodes.iter_mut() {
                follow_operands(list, &mut line.row);
            }
            for (line, _) in named.iter_mut() {
                follow_root(list, &mut line.row);
            }
        }
        Part::Guards | Part::Actions | Part::Witnesses => {
            let belongs = |line: &Line| part_of(line.row.tag) == Some(list.part);
            let start = named.iter().position(|(line, _)| belongs(line));
            let length = named.iter().filter(|(line, _)| belongs(line)).count();
            let start = start.unwrap_or(named.len());
            moved(list, &mut named[start..start + length])?;
        }
    }
    Ok(())
}

fn part_of(row_tag: i64) -> Option<Part> {
    match row_tag {
        tag::GUARD => Some(Part::Guards),
        tag::BECOMES_EQUAL | tag::BECOMES_SUCH => Some(Part::Actions),
        tag::WITNESS => Some(Part::Witnesses),
        _ => None,
    }
}

/// Whether a row names an identifier in column b.
fn names_identifier(row: Row) -> bool {
    row.tag == tag::NODE && Table::is_mention(row.a) || has_target(row)
}

/// Whether a row has a target: an action's variable, or what a witness is for.
fn has_target(row: Row) -> bool {
    matches!(
        row.tag,
        tag::BECOMES_EQUAL | tag::BECOMES_SUCH | tag::WITNESS
    )
}

fn follow_operands(list: &Numbers, row: &mut Row) {
    let count = operand_count(row.a);
    if count > 0 {
        row.b = renumbered(list, row.b);
    }
    if count > 1 {
        row.c = renumbered(list, row.c);
    }
}

fn follow_root(list: &Numbers, row: &mut Row) {
    match row.tag {
        tag::EVENT => {}
        tag::GUARD => row.b = renumbered(list, row.b),
        _ if has_target(*row) => row.c = renumbered(list, row.c),
        _ => row.a = renumbered(list, row.a),
    }
}

fn renumbered(list: &Numbers, number: i64) -> i64 {
    list.numbers[number as usize - 1] as i64
}

/// Puts each member at the number that the list gives it; the list has each number once.
fn moved<T: Clone>(list: &Numbers, members: &mut [T]) -> Result<(), Mistake> {
    let count = members.len();
    let mut sorted = list.numbers.clone();
    sorted.sort_unstable();
    if !sorted.iter().copied().eq(1..=count) {
        let message = format!(
            "`{}`: expected each number from 1 to {count} once; without this line they are numbered in the order of the text",
            list.part.word()
        );
        return Err(Mistake::new(list.at, &message));
    }
    let from = members.to_vec();
    for (member, &number) in from.into_iter().zip(&list.numbers) {
        members[number - 1] = member;
    }
    Ok(())
}
