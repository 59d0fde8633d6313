//! A mistake in the sort, the columns or the well-definedness of any one operator shows on the tables of operators.

use crate::common::definedness::{self, rule, Misdefined, Rule, BOTH, QUOTIENT, REMAINDER};
use crate::common::{has, reply, Fault, Faulty, OPERATORS};
use compare::against::{Call, Comparison, Effort, Reply, Services};
use compare::campaign::{compare_list, Report};
use compare::checks::accept;
use compare::formula::Sort::{Integer, Predicate};
use compare::formula::*;
use compare::generate::random::Random;
use compare::operators::*;
use compare::rows::{bytes_of, ROW_BYTES};
use compare::sequents::{sequents, spell_out};
use compare::services::{check, spell_entry, write_sequent};
use compare::shrink::rows_of;
use compare::table::*;

/// Whether some call differs on one of the tables with this operator.
fn notices(services: &dyn Services, tables: &[Vec<u8>], operator: i32, effort: Effort) -> bool {
    let mut tables = tables.iter().filter(|table| has(table, operator));
    tables.any(|table| {
        let comparison = Comparison::new(services, table).run(effort, &mut Random::new(0));
        comparison.difference.is_some()
    })
}

/// Other rules for an operator over two operands.
const OTHERS: [Rule; 8] = [
    "30",
    "wa",
    BOTH,
    QUOTIENT,
    REMAINDER,
    "33 wa 34 a wb",
    "33 wa 35 a wb",
    "33 wb wa",
];

/// The paper's rules written a second time spell the same; any other rule for any one operator is noticed.
#[test]
fn a_wrong_rule_of_well_definedness_is_noticed() {
    let tables = [nested_tables(), beside_division_tables()].concat();
    for bytes in &tables {
        let read = accept(bytes).expect("accepted");
        for goal in sequents(&read).iter().map(|sequent| sequent.goal) {
            if goal.form == 3 {
                let again = definedness::RIGHT.spelled(&read, goal.first);
                assert_eq!(spell_out(&read, goal), again);
            }
        }
    }
    for operator in OPERATORS {
        let others: &[Rule] = match rule(operator) {
            "30" => &["31", "4"],
            "wa" => &["30"],
            _ => &OTHERS,
        };
        for &other in others.iter().filter(|&&other| other != rule(operator)) {
            let services = Misdefined {
                operator,
                rule: other,
            };
            let noticed = notices(&services, &tables, operator, Effort::Every);
            assert!(noticed, "{operator} {other:?}");
        }
    }
}

/// The sorts of operands that an operator takes, and the sort that it makes.
type Sorts = (Vec<Sort>, Sort);

/// Checks sorts by a list in the order of the family's, as the paper's checks do otherwise.
struct Missorted(Vec<Sorts>);

impl Missorted {
    fn makes(&self, table: &Table, number: i32) -> Sort {
        let node = table.nodes[number as usize - 1];
        let is = |shape: &Shape| match node.operator {
            IDENTIFIER | AFTER => shape.makes == sort_of_identifier(table, node.b),
            _ => true,
        };
        let mut places = 0..SHAPES.len();
        let place = places.find(|&n| SHAPES[n].operator == node.operator && is(&SHAPES[n]));
        self.0[place.expect("a known operator")].1
    }

    /// The first row that check 8 names.
    fn first(&self, table: &Table) -> Option<usize> {
        for &node in &table.nodes {
            let below = operands(node).into_iter();
            let sorts: Vec<Sort> = below.map(|one| self.makes(table, one)).collect();
            let taken = |n: usize| SHAPES[n].operator == node.operator && self.0[n].0 == sorts;
            if !(0..SHAPES.len()).any(taken) {
                return Some(node.row);
            }
        }
        let wrong = |formula: &&Formula| {
            let takes = match formula.tag {
                51 => sort_of_identifier(table, formula.identifier),
                70 => Integer,
                _ => Predicate,
            };
            self.makes(table, formula.root) != takes
        };
        table.formulas.iter().find(wrong).map(|formula| formula.row)
    }
}

impl Services for Missorted {
    fn stack(&self) -> usize {
        8 << 20
    }

    fn check(&self, table: &[u8]) -> Reply {
        let answer = reply(check(table));
        if (1..8).contains(&answer.number) {
            return answer;
        }
        match self.first(&Table::new(rows_of(table).expect("rows"))) {
            Some(row) => Reply {
                number: 8,
                value: row as u64,
            },
            None if answer.number == 8 => Reply {
                number: 0,
                value: 0,
            },
            None => answer,
        }
    }

    fn write_sequent(&self, table: &[u8], k: u64, out: &mut [u8]) -> Reply {
        reply(write_sequent(table, k as usize, out))
    }

    fn spell_entry(&self, table: &[u8], k: u64, j: u64, out: &mut [u8]) -> Reply {
        reply(spell_entry(table, k as usize, j as usize, out))
    }
}

/// The paper's sorts.
fn right() -> Vec<Sorts> {
    let shapes = SHAPES.iter();
    shapes.map(|one| (one.takes.to_vec(), one.makes)).collect()
}

/// The paper's sorts but for one operator, which makes this one, or takes it on one side.
fn wrong(place: usize, sort: Sort) -> Vec<Missorted> {
    let shape = &SHAPES[place];
    let mut faults = Vec::new();
    if sort != shape.makes {
        let mut list = right();
        let same = |one: &Shape| one.operator == shape.operator && one.makes == shape.makes;
        let places = (0..SHAPES.len()).filter(|&other| same(&SHAPES[other]));
        places.for_each(|other| list[other].1 = sort);
        faults.push(Missorted(list));
    }
    for side in (0..shape.takes.len()).filter(|&side| shape.takes[side] != sort) {
        let mut list = right();
        list[place].0[side] = sort;
        faults.push(Missorted(list));
    }
    faults
}

#[test]
fn a_wrong_sort_of_one_operator_is_noticed() {
    let tables = root_tables();
    let services = Missorted(right());
    for table in &tables {
        assert_eq!(services.check(table), reply(check(table)));
    }
    for (place, shape) in SHAPES.iter().enumerate() {
        for sort in SORTS {
            for services in wrong(place, sort) {
                let noticed = notices(&services, &tables, shape.operator, Effort::Few);
                assert!(noticed, "{shape:?} {sort:?}");
            }
        }
    }
}

/// Answers as this program does, but reads one column of one operator's nodes as 0.
struct Blind {
    operator: i32,
    column: usize,
}

impl Blind {
    fn read(&self, table: &[u8]) -> Vec<u8> {
        let mut rows = rows_of(table).expect("rows");
        let nodes = rows.iter_mut().filter(|row| row.tag == 20);
        for row in nodes.filter(|row| row.a == self.operator) {
            match self.column {
                0 => row.b = 0,
                _ => row.c = 0,
            }
        }
        bytes_of(&rows)
    }
}

impl Services for Blind {
    fn stack(&self) -> usize {
        8 << 20
    }

    fn check(&self, table: &[u8]) -> Reply {
        reply(check(&self.read(table)))
    }

    fn write_sequent(&self, table: &[u8], k: u64, out: &mut [u8]) -> Reply {
        reply(write_sequent(&self.read(table), k as usize, out))
    }

    fn spell_entry(&self, table: &[u8], k: u64, j: u64, out: &mut [u8]) -> Reply {
        reply(spell_entry(&self.read(table), k as usize, j as usize, out))
    }
}

/// A column of one operator that isn't looked at is noticed, used or not.
#[test]
fn a_column_that_is_not_read_is_noticed() {
    let all = column_tables();
    let an_operators = all.len() / operator_numbers().count();
    let numbered = operator_numbers().zip(all.chunks(an_operators));
    for (operator, tables) in numbered.filter(|one| OPERATORS.contains(&one.0)) {
        for column in 0..2 {
            let services = Blind { operator, column };
            let noticed = notices(&services, tables, operator, Effort::Every);
            assert!(noticed, "{operator} {column}");
        }
    }
}

/// Every so many tables of the family.
fn some(step: usize) -> Vec<Vec<u8>> {
    family().into_iter().step_by(step).collect()
}

#[test]
fn no_fault_is_no_difference() {
    let tables = some(50);
    let right: Fault = |_, _, _| {};
    let (summary, found) = compare_list(&Faulty(right), &tables, 2).expect("no panic");
    assert!(found.is_none());
    assert_eq!(summary.tables, tables.len() as u64);
    assert!(summary.accepted > 0 && summary.refused[6] > 0 && summary.refused[7] > 0);
}

/// One ⇔ of a spelled entry is ∨ instead. The table shown is small.
#[test]
fn a_wrong_operator_in_an_entry_is_found() {
    let fault: Fault = |call, answer, out| {
        if matches!(call, Call::Spell { .. }) && answer.number == 0 {
            let mut rows = out.chunks_mut(ROW_BYTES);
            if let Some(row) = rows.find(|row| row.starts_with(b"  83         36")) {
                row[14] = b'4';
            }
        }
    };
    let compared = compare_list(&Faulty(fault), &nested_tables(), 1);
    let found = compared.expect("no panic").1.expect("found");
    assert!(matches!(found.difference.call, Call::Spell { .. }));
    assert!(found.table.len() <= 12 * ROW_BYTES, "{}", found.report());
    assert!(found.report().starts_with("DIFFERENCE at table "));
}
