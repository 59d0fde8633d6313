//! Makes a table, or a table and a log or a press, smaller while something stays true of it.

pub mod records;

use crate::formula::{columns, Columns, LITERAL, TOP, TRUE};
use crate::rows::{bytes_of, read_row, Row, ROW_BYTES};
use crate::table::is_parameter;
use std::collections::BTreeSet;
use std::time::{Duration, Instant};

/// Places of rows, counted from 0.
type Places = BTreeSet<usize>;

/// The smallest table found of which `stays` is still true.
pub fn shrink(table: &[u8], limit: Duration, mut stays: impl FnMut(&[u8]) -> bool) -> Vec<u8> {
    let end = Instant::now() + limit;
    let mut best = table.to_vec();
    loop {
        let size = weight(&best);
        if let Some(rows) = rows_of(&best) {
            let rows = shrink_rows(rows, end, &mut |rows| stays(&bytes_of(rows)));
            best = bytes_of(&rows);
        }
        best = shrink_bytes(best, end, &mut stays);
        if weight(&best) == size || Instant::now() > end {
            return best;
        }
    }
}

/// The smallest table and log found of which `stays` is still true.
pub fn shrink_pair(
    table: &[u8],
    log: &[u8],
    limit: Duration,
    mut stays: impl FnMut(&[u8], &[u8]) -> bool,
) -> (Vec<u8>, Vec<u8>) {
    let end = Instant::now() + limit;
    let (mut table, mut log) = (table.to_vec(), log.to_vec());
    loop {
        let size = (weight(&table), weight(&log));
        log = shrink_bytes(log, end, &mut |log| stays(&table, log));
        if let Some(rows) = rows_of(&table).filter(|rows| rows.iter().all(|row| row.tag < LOGGED)) {
            let (steps, rest) = log.split_at(whole_rows(&log) * ROW_BYTES);
            let both = [rows, rows_of(steps).unwrap_or_default()].concat();
            let both = shrink_rows(both, end, &mut |rows| {
                let (table, log) = parted(rows, rest);
                stays(&table, &log)
            });
            (table, log) = parted(&both, rest);
        }
        table = shrink_bytes(table, end, &mut |table| stays(table, &log));
        if (weight(&table), weight(&log)) == size || Instant::now() > end {
            return (table, log);
        }
    }
}

/// Rows of a log have this tag or the next one; those of a table have lower ones.
const LOGGED: i32 = 90;

/// Rows that stand for the records of a press's lists before its step: identifier, and codes of value and type.
const FIRST_RECORD: i32 = 901;
const SECOND_RECORD: i32 = 902;

/// How many rows a log begins with that are in the row form and have a log's tag, or stand for records.
pub fn whole_rows(log: &[u8]) -> usize {
    let rows = log.chunks(ROW_BYTES).map(read_row);
    let known = |row: Row| matches!(row.tag, LOGGED..=91 | FIRST_RECORD..=SECOND_RECORD);
    rows.take_while(|row| row.is_some_and(known)).count()
}

/// A table's rows, and the rows of a log behind them with what else it has.
fn parted(rows: &[Row], rest: &[u8]) -> (Vec<u8>, Vec<u8>) {
    let start = rows.iter().position(|row| row.tag >= LOGGED);
    let (table, log) = rows.split_at(start.unwrap_or(rows.len()));
    (bytes_of(table), [&bytes_of(log), rest].concat())
}

/// Fewer bytes first, then fewer bytes that aren't a space or a zero.
fn weight(table: &[u8]) -> (usize, usize) {
    let plain = table.iter().filter(|&byte| b" 0\n".contains(byte));
    (table.len(), table.len() - plain.count())
}

/// The rows, if all are in the row form and can be laid out again.
pub fn rows_of(table: &[u8]) -> Option<Vec<Row>> {
    let rows: Option<Vec<Row>> = table.chunks(ROW_BYTES).map(read_row).collect();
    rows.filter(|rows| bytes_of(rows) == table)
}

/// Leaves out runs of rows, then of bytes, from half of them down to one.
fn shrink_bytes(mut best: Vec<u8>, end: Instant, stays: &mut impl FnMut(&[u8]) -> bool) -> Vec<u8> {
    for unit in [ROW_BYTES, 1] {
        // Single bytes of whole rows stay: without one, only the frame would be seen.
        if unit == 1 && best.len().is_multiple_of(ROW_BYTES) {
            break;
        }
        let mut run = (best.len() / unit).next_power_of_two() * unit;
        while run >= unit {
            let mut at = 0;
            while at < best.len() && Instant::now() < end {
                let mut without = best.clone();
                without.drain(at..(at + run).min(best.len()));
                if stays(&without) {
                    best = without;
                } else {
                    at += run;
                }
            }
            run = if run == unit {
                0
            } else {
                run / 2 / unit * unit
            };
        }
    }
    best
}

/// Leaves out parts of the machines with all that names them, then makes formulas and numbers simpler.
fn shrink_rows(
    mut best: Vec<Row>,
    end: Instant,
    stays: &mut impl FnMut(&[Row]) -> bool,
) -> Vec<Row> {
    let mut run = best.len();
    while run > 0 {
        best = shrink_places(best, run, end, stays, |rows, place| {
            without_parts(rows, place, run)
        });
        run /= 2;
    }
    best = shrink_places(best, 1, end, stays, simpler_node);
    shrink_places(best, 1, end, stays, plainer)
}

/// Goes from the last row to the first by runs of so many and takes each smaller table that will do.
fn shrink_places(
    mut best: Vec<Row>,
    run: usize,
    end: Instant,
    stays: &mut impl FnMut(&[Row]) -> bool,
    smaller: impl Fn(&[Row], usize) -> Vec<Vec<Row>>,
) -> Vec<Row> {
    let mut place = best.len();
    while place > 0 && Instant::now() < end {
        place = place.min(best.len()).saturating_sub(run);
        let found = smaller(&best, place).into_iter().find(|rows| stays(rows));
        best = found.unwrap_or(best);
    }
    best
}

/// The table without the identifiers, events, formulas and steps in a run of rows, and without all that names them.
/// A last convergent or anticipated event can only go with the variant, so that is tried too.
fn without_parts(rows: &[Row], place: usize, run: usize) -> Vec<Vec<Row>> {
    let places = place..(place + run).min(rows.len());
    let parts: Places = places.filter(|&place| rows[place].tag != 20).collect();
    if parts.is_empty() {
        return vec![];
    }
    let mut tables = vec![without(rows, &with_names(rows, parts.clone()))];
    if parts.iter().any(|&part| rows[part].tag == 40) {
        let both = parts.into_iter().chain(tagged(rows, 70)).collect();
        tables.push(without(rows, &with_names(rows, both)));
    }
    tables
}

/// These rows, all rows that name them, and the formulas of all of these.
fn with_names(rows: &[Row], mut dropped: Places) -> Places {
    loop {
        let before = dropped.len();
        for (other, row) in rows.iter().enumerate() {
            if row.tag != 20 && names(rows, other).iter().any(|name| dropped.contains(name)) {
                dropped.insert(other);
            }
        }
        dropped.extend(values_of(rows, &dropped));
        if dropped.len() == before {
            break;
        }
    }
    let roots: Vec<usize> = dropped
        .iter()
        .filter_map(|&place| root_of(rows, place))
        .collect();
    for root in roots {
        dropped.extend(tree(rows, root));
    }
    dropped
}

/// The rows 91 of all steps whose rows 90 are among these.
fn values_of(rows: &[Row], steps: &Places) -> Places {
    let mut values = Places::new();
    for &step in steps.iter().filter(|&&step| rows[step].tag == LOGGED) {
        let later = (step + 1..rows.len()).take_while(|&place| rows[place].tag > LOGGED);
        values.extend(later);
    }
    values
}

/// The table with this node replaced by one of its operands or of theirs, or by a leaf that mentions nothing.
fn simpler_node(rows: &[Row], place: usize) -> Vec<Vec<Row>> {
    let operands = operand_places(rows, place);
    let names = rows
        .get(place)
        .is_some_and(|row| row.tag == 20 && !references(*row).is_empty());
    if !names {
        return vec![];
    }
    let below = tree(rows, place);
    let mut tables = Vec::new();
    let further = operands.iter().flat_map(|&one| operand_places(rows, one));
    for operand in operands.iter().copied().chain(further) {
        let kept = tree(rows, operand);
        let dropped = below.difference(&kept).copied().collect();
        let mut hoisted = rows.to_vec();
        rename(&mut hoisted, place, operand);
        tables.push(without(&hoisted, &dropped));
    }
    let dropped: Places = below.into_iter().filter(|&one| one != place).collect();
    for leaf in [LITERAL, TOP, TRUE] {
        let mut cut = rows.to_vec();
        cut[place] = Row::new(20, leaf, 0, 0);
        tables.push(without(&cut, &dropped));
    }
    tables
}

/// The table with one number of this row 0, or else 1.
fn plainer(rows: &[Row], place: usize) -> Vec<Vec<Row>> {
    let Some(&row) = rows.get(place) else {
        return vec![];
    };
    let mut tables = Vec::new();
    // A record stays that of its identifier.
    let first = usize::from(row.tag >= FIRST_RECORD);
    for at in first..3 {
        for plain in [0, 1] {
            if !(0..=plain).contains(&field(row, at)) {
                let mut changed = rows.to_vec();
                set_field(&mut changed[place], at, plain);
                tables.push(changed);
            }
        }
    }
    tables
}

/// A number of a row that names another row: the field, and the tag of what it names.
fn references(row: Row) -> Vec<(usize, i32)> {
    match row.tag {
        10 if is_parameter(row.a) => vec![(2, 40)],
        20 => match columns(row.a) {
            Some(Columns::Identifier | Columns::Variable) => vec![(1, 10)],
            Some(Columns::OneOperand) => vec![(1, 20)],
            Some(Columns::TwoOperands) => vec![(1, 20), (2, 20)],
            _ => vec![],
        },
        30..=32 | 70 => vec![(0, 20)],
        40 => vec![(2, 40)],
        50 => vec![(0, 40), (1, 20)],
        51 | 52 | 60 => vec![(0, 40), (1, 10), (2, 20)],
        90 => vec![(0, 40)],
        91 | FIRST_RECORD..=SECOND_RECORD => vec![(0, 10)],
        _ => vec![],
    }
}

fn field(row: Row, field: usize) -> i32 {
    [row.a, row.b, row.c][field]
}

fn set_field(row: &mut Row, field: usize, number: i32) {
    match field {
        0 => row.a = number,
        1 => row.b = number,
        _ => row.c = number,
    }
}

/// The places of the rows with this tag, in order of their numbers.
fn tagged(rows: &[Row], tag: i32) -> Vec<usize> {
    let all = 0..rows.len();
    all.filter(|&place| rows[place].tag == tag).collect()
}

/// The place of the row that this number names, if there is one.
fn place_of(rows: &[Row], tag: i32, number: i32) -> Option<usize> {
    let number = usize::try_from(number).ok()?.checked_sub(1)?;
    tagged(rows, tag).get(number).copied()
}

/// The identifiers and events that a row names, those that its formula mentions included.
fn names(rows: &[Row], place: usize) -> Places {
    let mut found = Places::new();
    let mut nodes = Places::new();
    for (at, tag) in references(rows[place]) {
        match place_of(rows, tag, field(rows[place], at)) {
            Some(root) if tag == 20 => nodes.extend(tree(rows, root)),
            Some(named) => drop(found.insert(named)),
            None => {}
        }
    }
    for node in nodes {
        for (at, tag) in references(rows[node]) {
            if tag == 10 {
                found.extend(place_of(rows, tag, field(rows[node], at)));
            }
        }
    }
    found
}

fn root_of(rows: &[Row], place: usize) -> Option<usize> {
    let references = references(rows[place]);
    let &(at, tag) = references.iter().find(|one| one.1 == 20)?;
    place_of(rows, tag, field(rows[place], at))
}

fn operand_places(rows: &[Row], place: usize) -> Vec<usize> {
    let Some(row) = rows.get(place).filter(|row| row.tag == 20) else {
        return vec![];
    };
    let operands = references(*row).into_iter().filter(|one| one.1 == 20);
    operands
        .filter_map(|(at, tag)| place_of(rows, tag, field(*row, at)))
        .filter(|&operand| operand < place)
        .collect()
}

/// The node in this place and all below it.
fn tree(rows: &[Row], root: usize) -> Places {
    let mut found = Places::new();
    let mut open = vec![root];
    while let Some(place) = open.pop() {
        if found.insert(place) {
            open.extend(operand_places(rows, place));
        }
    }
    found
}

/// Makes all that names one row name another.
fn rename(rows: &mut [Row], from: usize, to: usize) {
    let tag = rows[from].tag;
    let number = |place: usize| tagged(rows, tag).iter().position(|&one| one == place);
    let (Some(from), Some(to)) = (number(from), number(to)) else {
        return;
    };
    for row in rows {
        for (at, named) in references(*row) {
            if named == tag && field(*row, at) == from as i32 + 1 {
                set_field(row, at, to as i32 + 1);
            }
        }
    }
}

/// The table without these rows, and with the numbers of those that follow them lowered.
fn without(rows: &[Row], dropped: &Places) -> Vec<Row> {
    let gone = |tag: i32| -> Vec<i32> {
        let numbered = tagged(rows, tag).into_iter().zip(1..);
        let gone = numbered.filter(|(place, _)| dropped.contains(place));
        gone.map(|(_, number)| number).collect()
    };
    let gone = [(10, gone(10)), (20, gone(20)), (40, gone(40))];
    let mut kept = Vec::new();
    for (place, row) in rows.iter().enumerate() {
        if dropped.contains(&place) {
            continue;
        }
        let mut row = *row;
        for (at, tag) in references(row) {
            let number = field(row, at);
            let lists = gone.iter().filter(|list| list.0 == tag);
            let lower = lists.flat_map(|list| &list.1).filter(|&&one| one < number);
            set_field(&mut row, at, number - lower.count() as i32);
        }
        kept.push(row);
    }
    kept
}
