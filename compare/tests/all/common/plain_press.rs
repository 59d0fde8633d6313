//! Press and preview once more, over exact values, with mistakes that can be put in.

use super::plain_replay::{self, term};
use compare::against::Reply;
use compare::checks::{accept, Refusal};
use compare::press::Record;
use compare::presses::Presses;
use compare::replay::{NOT_A_RUN, OUTSIDE, UNDEFINED};
use compare::replays::reply;
use compare::rows::{read_row, Row, ROW_BYTES};
use compare::table::*;
use std::cell::RefCell;
use std::rc::Rc;

/// A mistake that an engineer may make.
#[derive(Clone, Copy, Debug, PartialEq, Eq)]
pub enum Mistake {
    None,
    // The first list.
    LongerAccepted,
    ShorterAccepted,
    TypesUnjudged,
    /// Of this kind alone.
    TypeUnjudged(i32),
    TypesOfVariablesAlone,
    OwnParametersUnjudged,
    OtherParametersUnjudged,
    AnyKnownType,
    TypeOfLowBits,
    BooleansUnjudged,
    BooleanUnjudged(i32),
    BooleanTwo,
    BooleanNegative,
    BooleanOfLowBits,
    ListAfterTerms,
    ListBeforeTable,
    // The second list.
    SecondLongerAccepted,
    SecondShorterAccepted,
    SecondAfterTerms,
    SecondTypesJudged,
    SecondTypesUnwritten,
    SecondVariablesAlone,
    // Rows.
    RowAfterAccepted,
    TornAfterAccepted,
    RowAfterIsLate,
    EqualsGiven,
    KeptGiven,
    OtherRowSkipped,
    SharedUngiven,
    InputsFirst,
    ConstantsGiven,
    AbstractEvent,
    Initialisation,
    NoAnticipated,
    UnusedInEvent,
    UnusedInValue,
    BooleanRowTwo,
    EmptyIsPerformed,
    // Which formulas are read, and in what order.
    NoAxioms,
    NoSecondAxiom,
    AxiomsUnjudged,
    AxiomsAfterGuards,
    NoGuards,
    NoSecondGuard,
    NoSuchThat,
    VariablesFirst,
    VariablesByRow,
    VariablesBackwards,
    SuchThatsFirst,
    InvariantsToo,
    EqualReadsUpdated,
    SuchThatReadsUpdated,
    BeforeForSuchThat,
    ParametersOfRecords,
    // What changes.
    ParametersChanged,
    AbstractVariablesToo,
    SharedUnchanged,
    SuchThatUnchanged,
    KeptIsZero,
    FirstChanged,
    ChangedBeforeFault,
    SecondChangedBeforeFault,
    PastTheEnd,
    BeforeTheStart,
    // Values.
    NarrowRecords,
    NarrowAfter,
    WideIsRefused,
    WideIsOutside,
    // Replies.
    FaultNamesRow1,
    CountsChanges,
    NumbersExchanged,
    RefusedTableNamesRow0,
    /// A term is read with one of replay's mistakes.
    Term(plain_replay::Mistake),
}

pub struct Plain(pub Mistake);

/// What is known of a press: the table, and values by identifier number less one.
struct Step<'a> {
    mistake: Mistake,
    table: &'a Table,
    event: i32,
    now: [i128; 64],
    after: [i128; 64],
    /// The values before, with those after of all variables that are done.
    updated: [i128; 64],
}

/// A reply, and the list as far as it was changed.
type Made = (Result<(), Refusal>, Vec<Record>);

type Read = Result<Table, Refusal>;

thread_local! {
    /// The table that was read last on this thread: a batch has many presses of one.
    static LAST: RefCell<Option<(Vec<u8>, Rc<Read>)>> = const { RefCell::new(None) };
}

fn read(table: &[u8]) -> Rc<Read> {
    LAST.with_borrow_mut(|last| match last {
        Some((bytes, read)) if bytes == table => read.clone(),
        _ => {
            let read = Rc::new(accept(table));
            *last = Some((table.to_vec(), read.clone()));
            read
        }
    })
}

fn refused<T>(number: i32) -> Result<T, Refusal> {
    Err(Refusal { number, row: 0 })
}

fn refuse_unless(allowed: bool) -> Result<(), Refusal> {
    match allowed {
        true => Ok(()),
        false => refused(NOT_A_RUN),
    }
}

impl Presses for Plain {
    fn stack(&self) -> usize {
        8 << 20
    }

    fn press(&self, table: &[u8], step: &[u8], state: &mut [Record]) -> Reply {
        let (answer, made) = self.make(table, step, state);
        if answer.is_ok() || self.is(Mistake::ChangedBeforeFault) {
            overwrite(state, &made);
        }
        if answer.is_ok() {
            self.write_beside(state);
        }
        self.reply(answer)
    }

    fn preview(
        &self,
        table: &[u8],
        step: &[u8],
        first: &mut [Record],
        second: &mut [Record],
    ) -> Reply {
        let (mut answer, made) = self.make(table, step, first);
        let read = read(table);
        let Ok(read) = &*read else {
            return self.reply(answer);
        };
        let judged = self.judge_second(read, second);
        if answer.is_ok() || !self.is(Mistake::SecondAfterTerms) {
            answer = judged.and(answer);
        }
        if answer.is_ok() {
            self.write_second(read, &made, second);
            if self.is(Mistake::FirstChanged) {
                overwrite(first, &made);
            }
        } else if self.is(Mistake::SecondChangedBeforeFault) {
            overwrite(second, &made);
        }
        self.reply(answer)
    }
}

/// As many records as there are in both.
fn overwrite(list: &mut [Record], made: &[Record]) {
    for (record, &new) in list.iter_mut().zip(made) {
        *record = new;
    }
}

impl Plain {
    fn is(&self, mistake: Mistake) -> bool {
        self.0 == mistake
    }

    fn reply(&self, answer: Result<(), Refusal>) -> Reply {
        let answer = match (self.0, answer) {
            (Mistake::FaultNamesRow1, Err(one)) if one.number >= OUTSIDE => Err(Refusal {
                number: one.number,
                row: 1,
            }),
            (Mistake::NumbersExchanged, Err(one)) if (16..=17).contains(&one.number) => {
                refused(OUTSIDE + UNDEFINED - one.number)
            }
            (Mistake::RefusedTableNamesRow0, Err(one)) => refused(one.number),
            (_, answer) => answer,
        };
        let value = u64::from(self.is(Mistake::CountsChanges));
        reply(answer.map(|()| value))
    }

    /// A record next to the list, which the comparison must see.
    fn write_beside(&self, list: &mut [Record]) {
        let place = match self.0 {
            Mistake::PastTheEnd => list.len() as isize,
            Mistake::BeforeTheStart => -1,
            _ => return,
        };
        // There are more records on either side.
        unsafe { list.as_mut_ptr().offset(place).write(Record::default()) };
    }

    fn judge_second(&self, table: &Table, second: &[Record]) -> Result<(), Refusal> {
        let all = table.identifiers.len();
        let fits = match self.0 {
            Mistake::SecondLongerAccepted => second.len() >= all,
            Mistake::SecondShorterAccepted => second.len() <= all,
            Mistake::SecondTypesJudged => {
                let mut pairs = second.iter().zip(&table.identifiers);
                let fits = |(record, one): (&Record, &Identifier)| {
                    record.type_number == one.type_number as u64
                };
                second.len() == all && pairs.all(fits)
            }
            _ => second.len() == all,
        };
        refuse_unless(fits)
    }

    fn write_second(&self, table: &Table, made: &[Record], second: &mut [Record]) {
        for ((record, new), one) in second.iter_mut().zip(made).zip(&table.identifiers) {
            match self.0 {
                Mistake::SecondTypesUnwritten => record.value = new.value,
                Mistake::SecondVariablesAlone if !is_variable_of(CONCRETE, one.kind) => {}
                _ => *record = *new,
            }
        }
    }

    fn make(&self, table: &[u8], step: &[u8], list: &[Record]) -> Made {
        if self.is(Mistake::ListBeforeTable) && list.is_empty() {
            return (refused(NOT_A_RUN), vec![]);
        }
        let read = read(table);
        let table = match &*read {
            Ok(table) => table,
            Err(refusal) => return (Err(*refusal), vec![]),
        };
        if self.is(Mistake::EmptyIsPerformed) && step.is_empty() {
            return (Ok(()), list.to_vec());
        }
        let judged = self.judge_list(table, step, list);
        if judged.is_err() && !self.is(Mistake::ListAfterTerms) {
            return (judged, vec![]);
        }
        let mut known = Step {
            mistake: self.0,
            table,
            event: 0,
            now: [0; 64],
            after: [0; 64],
            updated: [0; 64],
        };
        let mut made = list.to_vec();
        let answer = known.take(step, &mut made);
        match answer {
            Err(one) if one.number != NOT_A_RUN => (answer, made),
            _ => (judged.and(answer), made),
        }
    }

    fn judge_list(&self, table: &Table, step: &[u8], list: &[Record]) -> Result<(), Refusal> {
        let all = table.identifiers.len();
        refuse_unless(match self.0 {
            Mistake::LongerAccepted => list.len() >= all,
            Mistake::ShorterAccepted => list.len() <= all,
            _ => list.len() == all,
        })?;
        for (record, one) in list.iter().zip(&table.identifiers) {
            let fits = self.type_fits(record, one) && self.boolean_fits(record, one);
            refuse_unless(fits || self.is_passed_over(one, step))?;
        }
        Ok(())
    }

    /// Parameters of the event in the step's row 90, or of others.
    fn is_passed_over(&self, one: &Identifier, step: &[u8]) -> bool {
        let event = next_row(&mut &*step).map_or(0, |row| row.a);
        one.kind == CONCRETE_PARAMETER
            && match self.0 {
                Mistake::OwnParametersUnjudged => one.owner == event,
                Mistake::OtherParametersUnjudged => one.owner != event,
                _ => false,
            }
    }

    fn type_fits(&self, record: &Record, one: &Identifier) -> bool {
        let unjudged = match self.0 {
            Mistake::TypesUnjudged => true,
            Mistake::TypeUnjudged(kind) => kind == one.kind,
            Mistake::TypesOfVariablesAlone => !is_variable_of(CONCRETE, one.kind),
            Mistake::AnyKnownType => (1..=2).contains(&record.type_number),
            Mistake::TypeOfLowBits => record.type_number as u32 == one.type_number as u32,
            _ => false,
        };
        unjudged || record.type_number == one.type_number as u64
    }

    fn boolean_fits(&self, record: &Record, one: &Identifier) -> bool {
        let unjudged = match self.0 {
            Mistake::BooleansUnjudged => true,
            Mistake::BooleanUnjudged(kind) => kind == one.kind,
            Mistake::BooleanTwo => record.value == 2,
            Mistake::BooleanNegative => record.value < 0,
            Mistake::BooleanOfLowBits => (0..=1).contains(&(record.value as i32)),
            _ => false,
        };
        one.type_number != BOOLEAN || unjudged || (0..=1).contains(&record.value)
    }
}

impl Step<'_> {
    fn is(&self, mistake: Mistake) -> bool {
        self.mistake == mistake
    }

    /// Reads the rows and the formulas, and changes the list as far as it gets.
    fn take(&mut self, step: &[u8], list: &mut [Record]) -> Result<(), Refusal> {
        for (now, record) in self.now.iter_mut().zip(list.iter()) {
            *now = match self.mistake {
                Mistake::NarrowRecords => i128::from(record.value as i32),
                _ => i128::from(record.value),
            };
        }
        let more = self.read(step, list)?;
        if !self.is(Mistake::RowAfterIsLate) {
            refuse_unless(!more)?;
        }
        let variables = self.variables();
        if self.is(Mistake::VariablesFirst) {
            self.change(&variables, list)?;
        }
        for root in self.conditions() {
            self.is_true(root)?;
        }
        self.change(&variables, list)?;
        refuse_unless(!more)
    }

    /// Reads the rows that are expected; whether something follows them.
    fn read(&mut self, step: &[u8], list: &mut [Record]) -> Result<bool, Refusal> {
        let mut rest = step;
        let row = next_row(&mut rest)?;
        let unused = (row.b != 0 || row.c != 0) && !self.is(Mistake::UnusedInEvent);
        refuse_unless(row.tag == 90 && !unused && self.may_come(row.a))?;
        self.event = row.a;
        for number in self.given() {
            let mut row = next_row(&mut rest)?;
            if self.is(Mistake::OtherRowSkipped) && row.tag == 91 && row.a < number {
                row = next_row(&mut rest)?;
            }
            self.read_value(number, row, list)?;
        }
        let ignored = match self.mistake {
            Mistake::RowAfterAccepted => rest.len() >= ROW_BYTES,
            Mistake::TornAfterAccepted => rest.len() < ROW_BYTES,
            _ => false,
        };
        Ok(!rest.is_empty() && !ignored)
    }

    fn may_come(&self, event: i32) -> bool {
        let Some(Event { machine, class, .. }) = self.table.event(event) else {
            return false;
        };
        let concrete = machine == CONCRETE || self.is(Mistake::AbstractEvent);
        match class {
            INITIALISATION => machine == CONCRETE && self.is(Mistake::Initialisation),
            ANTICIPATED => concrete && !self.is(Mistake::NoAnticipated),
            _ => concrete,
        }
    }

    /// The identifiers whose rows follow the row 90.
    fn given(&self) -> Vec<i32> {
        let (mut inputs, mut variables) = (vec![], vec![]);
        for (one, number) in self.table.identifiers.iter().zip(1..) {
            let input = match one.kind {
                CONSTANT => self.is(Mistake::ConstantsGiven),
                CONCRETE_PARAMETER => one.owner == self.event,
                _ => false,
            };
            inputs.extend(input.then_some(number));
            if is_variable_of(CONCRETE, one.kind) && self.is_given(one, number) {
                variables.push(number);
            }
        }
        let mut all = [inputs, variables].concat();
        if !self.is(Mistake::InputsFirst) {
            all.sort();
        }
        all
    }

    fn is_given(&self, one: &Identifier, number: i32) -> bool {
        match self.table.action(self.event, number) {
            Some(row) if row.tag == BECOMES_EQUAL => self.is(Mistake::EqualsGiven),
            Some(_) => one.kind != SHARED_VARIABLE || !self.is(Mistake::SharedUngiven),
            None => self.is(Mistake::KeptGiven),
        }
    }

    fn read_value(&mut self, number: i32, row: Row, list: &mut [Record]) -> Result<(), Refusal> {
        let unused = row.c != 0 && !self.is(Mistake::UnusedInValue);
        let one = self.table.identifiers[number as usize - 1];
        let most = if self.is(Mistake::BooleanRowTwo) {
            2
        } else {
            1
        };
        let fits = one.type_number == INTEGER || (0..=most).contains(&row.b);
        refuse_unless(row.tag == 91 && row.a == number && !unused && fits)?;
        let place = number as usize - 1;
        if is_variable(one.kind) {
            self.after[place] = i128::from(row.b);
        } else if !self.is(Mistake::ParametersOfRecords) {
            self.now[place] = i128::from(row.b);
        }
        if self.is(Mistake::ParametersChanged) && one.is_parameter() {
            list[place].value = i64::from(row.b);
        }
        Ok(())
    }

    /// Roots that must be true, in order.
    fn conditions(&self) -> Vec<i32> {
        let roots = |rows: Vec<&Formula>, none: Mistake, no_second: Mistake| {
            let numbered = rows.into_iter().map(|row| row.root).enumerate();
            let kept = numbered
                .filter(|one| !(self.is(none) || self.is(no_second) && one.0 == 1))
                .map(|one| one.1);
            kept.collect::<Vec<i32>>()
        };
        let axioms = roots(
            self.table.tagged(AXIOM).collect(),
            Mistake::NoAxioms,
            Mistake::NoSecondAxiom,
        );
        let guards = roots(
            self.table.guards(self.event).collect(),
            Mistake::NoGuards,
            Mistake::NoSecondGuard,
        );
        let mut all = match self.mistake {
            Mistake::AxiomsAfterGuards => [guards, axioms].concat(),
            _ => [axioms, guards].concat(),
        };
        if self.is(Mistake::InvariantsToo) {
            let invariants = self.table.tagged(CONCRETE_INVARIANT);
            all.extend(invariants.map(|row| row.root));
        }
        all
    }

    fn is_true(&self, root: i32) -> Result<(), Refusal> {
        let axiom = self.table.tagged(AXIOM).any(|row| row.root == root);
        let truth = self.value(root)?;
        refuse_unless(truth == 1 || axiom && self.is(Mistake::AxiomsUnjudged))
    }

    fn value(&self, root: i32) -> Result<i128, Refusal> {
        self.value_with(root, self.now)
    }

    fn value_with(&self, root: i32, now: [i128; 64]) -> Result<i128, Refusal> {
        let mistake = match self.mistake {
            Mistake::Term(mistake) => mistake,
            Mistake::BeforeForSuchThat => plain_replay::Mistake::BeforeForSuchThat,
            _ => plain_replay::Mistake::None,
        };
        let value = term(mistake, self.table, root, (now, self.after));
        value.or_else(refused)
    }

    /// The variables in the order in which they are changed.
    fn variables(&self) -> Vec<i32> {
        let mut variables = self.table.variables(CONCRETE);
        let action = |variable: i32| self.table.action(self.event, variable);
        match self.mistake {
            Mistake::VariablesBackwards => variables.reverse(),
            Mistake::VariablesByRow => {
                variables.sort_by_key(|&one| action(one).map_or(usize::MAX, |row| row.row));
            }
            Mistake::SuchThatsFirst => {
                variables
                    .sort_by_key(|&one| action(one).is_none_or(|row| row.tag == BECOMES_EQUAL));
            }
            _ => {}
        }
        variables
    }

    fn change(&mut self, variables: &[i32], list: &mut [Record]) -> Result<(), Refusal> {
        self.updated = self.now;
        for &variable in variables {
            let after = self.after_value(variable)?;
            self.updated[variable as usize - 1] = after;
            self.write(variable, after, list);
        }
        if self.is(Mistake::AbstractVariablesToo) {
            for number in self.table.of_kind(|kind| kind == ABSTRACT_VARIABLE) {
                list[number as usize - 1].value = 0;
            }
        }
        Ok(())
    }

    fn after_value(&self, variable: i32) -> Result<i128, Refusal> {
        let place = variable as usize - 1;
        match self.table.action(self.event, variable) {
            None if self.is(Mistake::KeptIsZero) => Ok(0),
            None => Ok(self.now[place]),
            Some(row) if row.tag == BECOMES_EQUAL => {
                let value = match self.mistake {
                    Mistake::EqualReadsUpdated => self.value_with(row.root, self.updated)?,
                    _ => self.value(row.root)?,
                };
                let narrow = i32::try_from(value).is_ok();
                match self.mistake {
                    Mistake::WideIsRefused if !narrow => refused(NOT_A_RUN),
                    Mistake::WideIsOutside if !narrow => refused(OUTSIDE),
                    _ => Ok(value),
                }
            }
            Some(_) if self.is(Mistake::NoSuchThat) => Ok(self.after[place]),
            Some(row) => {
                let truth = match self.mistake {
                    Mistake::SuchThatReadsUpdated => self.value_with(row.root, self.updated)?,
                    _ => self.value(row.root)?,
                };
                refuse_unless(truth == 1)?;
                Ok(self.after[place])
            }
        }
    }

    fn write(&self, variable: i32, after: i128, list: &mut [Record]) {
        let place = variable as usize - 1;
        let action = self.table.action(self.event, variable);
        let kind = self.table.identifiers[place].kind;
        let unchanged = match self.mistake {
            Mistake::SharedUnchanged => kind == SHARED_VARIABLE,
            Mistake::SuchThatUnchanged => action.is_some_and(|row| row.tag == BECOMES_SUCH_THAT),
            _ => false,
        };
        let Some(record) = list.get_mut(place).filter(|_| !unchanged) else {
            return;
        };
        record.value = match self.mistake {
            Mistake::NarrowAfter => i64::from(after as i32),
            _ => after as i64,
        };
    }
}

/// The next row, if it is a whole one.
fn next_row(rest: &mut &[u8]) -> Result<Row, Refusal> {
    let Some((row, behind)) = rest.split_at_checked(ROW_BYTES) else {
        return refused(NOT_A_RUN);
    };
    *rest = behind;
    read_row(row).map_or(refused(NOT_A_RUN), Ok)
}
