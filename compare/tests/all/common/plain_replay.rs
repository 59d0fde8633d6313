//! Replay once more, step by step over exact values, with mistakes that can be put in.

use super::wrong_orders::{wrong_order, At};
use compare::against::Reply;
use compare::checks::{accept, initialisation, Refusal};
use compare::formula::*;
use compare::replay::{NOT_A_RUN, OUTSIDE, UNDEFINED};
use compare::replays::{reply, Replays};
use compare::rows::{read_row, Row, ROW_BYTES};
use compare::table::*;

/// A mistake that an engineer may make.
#[derive(Clone, Copy, Debug, PartialEq, Eq)]
pub enum Mistake {
    None,
    // Which formulas are read, and in what order.
    NoAxioms,
    NoSecondAxiom,
    NoGuards,
    NoSecondGuard,
    NoInitialActions,
    NoSuchThat,
    KeptIsFree,
    VariablesFirst,
    VariablesByRow,
    VariablesBackwards,
    InvariantsToo,
    AfterForEqual,
    BeforeForSuchThat,
    // Rows.
    AnyBoolean,
    BooleanTwo,
    BooleanLate,
    UnusedInEvent,
    UnusedInValue,
    AnyLastByte,
    AnyLaterEvent,
    InitialisationAgain,
    AbstractEvent,
    AnyFirstEvent,
    NoAnticipated,
    InputsFirst,
    ConstantsUnlogged,
    SharedUnlogged,
    LastBadRow,
    NextRowsFirst,
    TornBetweenIsEnd,
    TornInsideIsEnd,
    TornIsRow0,
    EndedNamesRow,
    EndedIsRun,
    EmptyIsRun,
    EmptyNamesRow1,
    LongIsRefused,
    // Replies.
    CountsInitialisation,
    NumbersExchanged,
    FalseNamesLastRow,
    FaultNamesRow1,
    LogFirst,
    // Terms.
    Wraps,
    Saturates,
    HighestPlusOneInside,
    LowestMinusOneInside,
    HighestOutside,
    NarrowProducts,
    NegationWraps,
    LowestByMinusOneWraps,
    LowestModMinusOneOutside,
    DivisionFloors,
    RemainderNotNegative,
    OldRemainder,
    NegativeDividendAllowed,
    NegativeDivisorAllowed,
    ZeroDivisorOfModAllowed,
    QuotientAsRemainder,
    ZeroDivisorIsZero,
    PartsUncounted,
    DivisorOutsideIsZero,
    DividendOutsideIsNegative,
    DividendOutsideHasItsSign,
    /// The operator's fault comes before that of its right operand.
    NegativeByOutsideIsUndefined,
    AndReadsRight,
    OrReadsRight,
    ImpliesReadsRight,
    ConnectivesReadBoth,
    EquivalentReadsBoth,
    EquivalentIsShort,
    FaultyRightIsFalse,
    // The order of faults: the former one, the right operand's first, that of the node with the lower number, the operator's
    // before an operand's, and others.
    Former(At),
    RightFirst(At),
    LowerNumberFirst,
    OperatorBeforeLeft(At),
    OutsideWins,
    UndefinedDivisorWins,
    ZeroTimesStops,
    EquivalentRightFirst,
}

/// A value that is exact even outside 64 bits, or the first fault.
#[derive(Clone, Copy, Debug, PartialEq, Eq)]
pub enum Value {
    Inside(i128),
    Outside(i128),
    Undefined,
}
use Value::*;

/// The value of a formula with values before and after a step, or the number of its fault.
pub fn term(
    mistake: Mistake,
    table: &Table,
    root: i32,
    (now, after): ([i128; 64], [i128; 64]),
) -> Result<i128, i32> {
    let run = Run {
        mistake,
        table,
        log: &[],
        rows: 0,
        now,
        after,
    };
    match run.value(root) {
        Inside(value) => Ok(value),
        Outside(_) => Err(OUTSIDE),
        Undefined => Err(UNDEFINED),
    }
}

pub struct Plain(pub Mistake);

impl Replays for Plain {
    fn stack(&self) -> usize {
        8 << 20
    }

    fn replay(&self, table: &[u8], run: &[u8]) -> Reply {
        reply(self.answer(table, run))
    }
}

/// A replay under way.
struct Run<'a> {
    mistake: Mistake,
    table: &'a Table,
    log: &'a [u8],
    /// Rows that were read.
    rows: usize,
    now: [i128; 64],
    after: [i128; 64],
}

/// The rows of one step.
struct Step {
    event: i32,
    start: usize,
}

fn stop<T>(number: i32, row: usize) -> Result<T, Refusal> {
    Err(Refusal { number, row })
}

impl Plain {
    fn answer(&self, table: &[u8], run: &[u8]) -> Result<u64, Refusal> {
        if self.0 == Mistake::LogFirst && run.is_empty() {
            return stop(NOT_A_RUN, 0);
        }
        self.answer_for(&accept(table)?, run)
    }

    /// The same for a table that is read already.
    pub fn answer_for(&self, table: &Table, run: &[u8]) -> Result<u64, Refusal> {
        if self.0 == Mistake::LongIsRefused && run.len() > Table::MOST_BYTES {
            return stop(NOT_A_RUN, 0);
        }
        let run = Run {
            mistake: self.0,
            table,
            log: run,
            rows: 0,
            now: [0; 64],
            after: [0; 64],
        };
        let answer = run.replay();
        match (self.0, answer) {
            (Mistake::NumbersExchanged, Err(one)) if one.number != NOT_A_RUN => {
                stop(OUTSIDE + UNDEFINED - one.number, one.row)
            }
            (Mistake::FaultNamesRow1, Err(one)) if one.number != NOT_A_RUN => stop(one.number, 1),
            (Mistake::CountsInitialisation, Ok(steps)) => Ok(steps + 1),
            (_, answer) => answer,
        }
    }
}

impl Run<'_> {
    fn is(&self, mistake: Mistake) -> bool {
        self.mistake == mistake
    }

    fn replay(mut self) -> Result<u64, Refusal> {
        if self.log.is_empty() {
            return match self.mistake {
                Mistake::EmptyIsRun => Ok(0),
                Mistake::EmptyNamesRow1 => stop(NOT_A_RUN, 1),
                _ => stop(NOT_A_RUN, 0),
            };
        }
        let mut steps = 0;
        let mut step = self.read(true)?;
        loop {
            if self.is(Mistake::NextRowsFirst) && !self.is_over() {
                let mut ahead = Run { ..self };
                ahead.read(false)?;
            }
            self.judge(&step)?;
            for variable in self.table.variables(CONCRETE) {
                self.now[variable as usize - 1] = self.after[variable as usize - 1];
            }
            if self.is_over() {
                return Ok(steps);
            }
            step = match self.read(false) {
                Err(one) if self.is(Mistake::EndedIsRun) && one.row == 0 => return Ok(steps),
                other => other?,
            };
            steps += 1;
        }
    }

    fn left(&self) -> usize {
        self.log.len().saturating_sub(self.rows * ROW_BYTES)
    }

    fn is_over(&self) -> bool {
        let torn = self.is(Mistake::TornBetweenIsEnd) && self.left() < ROW_BYTES;
        self.left() == 0 || torn
    }

    fn next_row(&mut self, inside: bool) -> Result<Row, Refusal> {
        let left = self.left();
        if left == 0 {
            let named = self.is(Mistake::EndedNamesRow);
            return stop(NOT_A_RUN, if named { self.rows + 1 } else { 0 });
        }
        let start = self.rows * ROW_BYTES;
        self.rows += 1;
        if left < ROW_BYTES {
            let unnamed = inside && self.is(Mistake::TornInsideIsEnd);
            let unnamed = unnamed || self.is(Mistake::TornIsRow0);
            return stop(NOT_A_RUN, if unnamed { 0 } else { self.rows });
        }
        let mut bytes = self.log[start..start + ROW_BYTES].to_vec();
        if self.is(Mistake::AnyLastByte) {
            bytes[ROW_BYTES - 1] = 10;
        }
        match read_row(&bytes) {
            Some(row) => Ok(row),
            None => stop(NOT_A_RUN, self.rows),
        }
    }

    fn read(&mut self, first: bool) -> Result<Step, Refusal> {
        let row = self.next_row(false)?;
        let start = self.rows;
        let unused = (row.b != 0 || row.c != 0) && !self.is(Mistake::UnusedInEvent);
        if row.tag != 90 || unused || !self.may_come(row.a, first) {
            return stop(NOT_A_RUN, start);
        }
        let mut bad = None;
        for identifier in self.logged(row.a) {
            match self.read_value(identifier) {
                Err(one) if self.is(Mistake::LastBadRow) && one.row != 0 => bad = Some(one),
                other => other?,
            }
        }
        match bad {
            Some(one) => Err(one),
            None => Ok(Step {
                event: row.a,
                start,
            }),
        }
    }

    fn may_come(&self, event: i32, first: bool) -> bool {
        let Some(Event { machine, class, .. }) = self.table.event(event) else {
            return false;
        };
        let concrete = machine == CONCRETE || self.is(Mistake::AbstractEvent) && !first;
        match (first, class) {
            (true, INITIALISATION) => concrete,
            (true, _) => concrete && self.is(Mistake::AnyFirstEvent),
            (false, INITIALISATION) => concrete && self.is(Mistake::InitialisationAgain),
            (false, ANTICIPATED) => concrete && !self.is(Mistake::NoAnticipated),
            (false, _) => concrete || self.is(Mistake::AnyLaterEvent),
        }
    }

    /// The identifiers whose rows follow a row 90.
    fn logged(&self, event: i32) -> Vec<i32> {
        let first = self.table.events[event as usize - 1].class == INITIALISATION;
        let (mut inputs, mut variables, mut all) = (vec![], vec![], vec![]);
        for (one, number) in self.table.identifiers.iter().zip(1..) {
            let input = match one.kind {
                CONSTANT => first && !self.is(Mistake::ConstantsUnlogged),
                CONCRETE_PARAMETER => one.owner == event,
                _ => false,
            };
            let variable = match one.kind {
                CONCRETE_VARIABLE => true,
                SHARED_VARIABLE => !self.is(Mistake::SharedUnlogged),
                _ => false,
            };
            inputs.extend(input.then_some(number));
            variables.extend(variable.then_some(number));
            all.extend((input || variable).then_some(number));
        }
        match self.is(Mistake::InputsFirst) {
            true => [inputs, variables].concat(),
            false => all,
        }
    }

    fn read_value(&mut self, identifier: i32) -> Result<(), Refusal> {
        let row = self.next_row(true)?;
        let unused = row.c != 0 && !self.is(Mistake::UnusedInValue);
        let Identifier {
            kind, type_number, ..
        } = self.table.identifiers[identifier as usize - 1];
        let boolean = match self.mistake {
            Mistake::AnyBoolean | Mistake::BooleanLate => true,
            Mistake::BooleanTwo => (0..=2).contains(&row.b),
            _ => (0..=1).contains(&row.b),
        };
        let fits = type_number == INTEGER || boolean;
        if row.tag != 91 || row.a != identifier || unused || !fits {
            return stop(NOT_A_RUN, self.rows);
        }
        let values = if is_variable(kind) {
            &mut self.after
        } else {
            &mut self.now
        };
        values[identifier as usize - 1] = i128::from(row.b);
        Ok(())
    }

    /// Axioms, guards, variables: each as a formula that must give a value, or as an unassigned variable.
    fn judge(&mut self, step: &Step) -> Result<(), Refusal> {
        let first = step.event == initialisation(self.table, CONCRETE).unwrap_or(0);
        let mut roots = Vec::new();
        if first && !self.is(Mistake::NoAxioms) {
            let axioms = self.table.tagged(AXIOM).map(|row| row.root);
            let skipped = self.is(Mistake::NoSecondAxiom);
            roots.extend(axioms.enumerate().filter(|one| !(skipped && one.0 == 1)));
        }
        if !self.is(Mistake::NoGuards) {
            let guards = self.table.guards(step.event).map(|row| row.root);
            let skipped = self.is(Mistake::NoSecondGuard);
            roots.extend(guards.enumerate().filter(|one| !(skipped && one.0 == 1)));
        }
        if self.is(Mistake::InvariantsToo) {
            let invariants = self.table.tagged(CONCRETE_INVARIANT).map(|row| row.root);
            roots.extend(invariants.enumerate());
        }
        if self.is(Mistake::VariablesFirst) {
            self.judge_variables(step, first)?;
        }
        for (_, root) in roots {
            self.judge_value(root, 1, step)?;
        }
        self.judge_variables(step, first)?;
        self.judge_booleans(step)
    }

    fn judge_booleans(&self, step: &Step) -> Result<(), Refusal> {
        let logged = self.logged(step.event);
        let bad = logged.iter().position(|&number| {
            let one = self.table.identifiers[number as usize - 1];
            let values = if is_variable(one.kind) {
                &self.after
            } else {
                &self.now
            };
            one.type_number == BOOLEAN && !(0..=1).contains(&values[number as usize - 1])
        });
        match bad {
            Some(place) if self.is(Mistake::BooleanLate) => stop(NOT_A_RUN, step.start + 1 + place),
            _ => Ok(()),
        }
    }

    fn judge_variables(&self, step: &Step, first: bool) -> Result<(), Refusal> {
        if first && self.is(Mistake::NoInitialActions) {
            return Ok(());
        }
        let mut variables = self.table.variables(CONCRETE);
        if self.is(Mistake::VariablesBackwards) {
            variables.reverse();
        }
        if self.is(Mistake::VariablesByRow) {
            let row = |&variable: &i32| {
                let action = self.table.action(step.event, variable);
                action.map_or(usize::MAX, |action| action.row)
            };
            variables.sort_by_key(row);
        }
        for variable in variables {
            self.judge_variable(variable, step)?;
        }
        Ok(())
    }

    fn judge_variable(&self, variable: i32, step: &Step) -> Result<(), Refusal> {
        let place = variable as usize - 1;
        match self.table.action(step.event, variable) {
            None if self.is(Mistake::KeptIsFree) => Ok(()),
            None if self.now[place] == self.after[place] => Ok(()),
            None => self.refuse(step),
            Some(action) if action.tag == BECOMES_EQUAL => {
                let wanted = self.after[place];
                match self.mistake {
                    Mistake::AfterForEqual => {
                        self.updated(place).judge_value(action.root, wanted, step)
                    }
                    _ => self.judge_value(action.root, wanted, step),
                }
            }
            Some(_) if self.is(Mistake::NoSuchThat) => Ok(()),
            Some(action) => self.judge_value(action.root, 1, step),
        }
    }

    /// The same with the variables before this one at their after values.
    fn updated(&self, place: usize) -> Run<'_> {
        let mut now = self.now;
        for variable in self.table.variables(CONCRETE) {
            let before = variable as usize - 1;
            if before < place {
                now[before] = self.after[before];
            }
        }
        Run { now, ..*self }
    }

    fn refuse(&self, step: &Step) -> Result<(), Refusal> {
        let last = self.is(Mistake::FalseNamesLastRow);
        stop(NOT_A_RUN, if last { self.rows } else { step.start })
    }

    fn judge_value(&self, root: i32, wanted: i128, step: &Step) -> Result<(), Refusal> {
        match self.value(root) {
            Inside(value) if value == wanted => Ok(()),
            Inside(_) => self.refuse(step),
            Outside(_) => stop(OUTSIDE, step.start),
            Undefined => stop(UNDEFINED, step.start),
        }
    }

    fn value(&self, number: i32) -> Value {
        let Node { operator, b, .. } = self.table.nodes[number as usize - 1];
        match operator {
            LITERAL => Inside(i128::from(b)),
            IDENTIFIER => Inside(self.now[b as usize - 1]),
            AFTER if self.is(Mistake::BeforeForSuchThat) => Inside(self.now[b as usize - 1]),
            AFTER => Inside(self.after[b as usize - 1]),
            TRUE | TOP => Inside(1),
            FALSE | BOTTOM => Inside(0),
            BOOL => self.value(b),
            NOT => match self.value(b) {
                Inside(truth) => Inside(1 - truth),
                fault => fault,
            },
            NEGATION => match self.value(b) {
                Inside(value) if self.is(Mistake::NegationWraps) => {
                    Inside(i128::from((value as i64).wrapping_neg()))
                }
                Inside(value) => self.ranged(-value),
                Outside(value) => Outside(value.wrapping_neg()),
                Undefined => Undefined,
            },
            PLUS..=AT_MOST => self.strict(number),
            _ => self.connective(number),
        }
    }

    /// A value that an operator makes of values inside.
    fn ranged(&self, exact: i128) -> Value {
        let (low, high) = (i128::from(i64::MIN), i128::from(i64::MAX));
        let (low, high) = match self.mistake {
            Mistake::HighestPlusOneInside => (low, high + 1),
            Mistake::LowestMinusOneInside => (low - 1, high),
            Mistake::HighestOutside => (low, high - 1),
            _ => (low, high),
        };
        match self.mistake {
            Mistake::Wraps => Inside(i128::from(exact as i64)),
            Mistake::Saturates => Inside(exact.clamp(low, high)),
            _ if (low..=high).contains(&exact) => Inside(exact),
            _ => Outside(exact),
        }
    }

    /// The left operand's fault, else the right one's, else the operator's own.
    fn strict(&self, number: i32) -> Value {
        let node = self.table.nodes[number as usize - 1];
        let (left, right) = (self.value(node.b), self.value(node.c));
        let undefined = || match node.operator {
            DIVIDE => self.undefined_quotient(left, right),
            MOD => self.undefined_remainder(left, right),
            _ => None,
        };
        let value = wrong_order(self.mistake, self.table, node, left, right).or_else(undefined);
        value.unwrap_or_else(|| match (left, right) {
            (Inside(a), Inside(b)) => self.combined(node.operator, a, b),
            (Undefined, _) | (Inside(_), Undefined) => Undefined,
            (Outside(_), Undefined) => left,
            (Inside(a) | Outside(a), Inside(b) | Outside(b)) => self.uncounted(node.operator, a, b),
        })
    }

    /// A term with a part outside.
    fn uncounted(&self, operator: i32, a: i128, b: i128) -> Value {
        let division = operator == DIVIDE || operator == MOD;
        if self.is(Mistake::PartsUncounted) && !division {
            return self.combined(operator, a, b);
        }
        Outside(match operator {
            PLUS => a.wrapping_add(b),
            MINUS => a.wrapping_sub(b),
            TIMES => a.wrapping_mul(b),
            _ => 0,
        })
    }

    /// What ÷ gives where it is undefined itself.
    fn undefined_quotient(&self, left: Value, right: Value) -> Option<Value> {
        match (left, right) {
            (Inside(_), Inside(0)) if self.is(Mistake::ZeroDivisorIsZero) => Some(Inside(0)),
            (Inside(_), Inside(0)) => Some(Undefined),
            (Inside(_), Outside(0)) if self.is(Mistake::DivisorOutsideIsZero) => Some(Undefined),
            (Inside(a), Inside(b)) if self.is(Mistake::QuotientAsRemainder) => {
                (a < 0 || b < 0).then_some(Undefined)
            }
            _ => None,
        }
    }

    /// What mod gives where it is undefined itself.
    fn undefined_remainder(&self, left: Value, right: Value) -> Option<Value> {
        let right_way = match (left, right) {
            (Inside(_), Inside(..=0)) | (Inside(..0), Inside(_)) => Some(Undefined),
            _ => None,
        };
        self.mistaken_remainder(left, right).unwrap_or(right_way)
    }

    /// The same by a mistake, where it is about these operands.
    fn mistaken_remainder(&self, left: Value, right: Value) -> Option<Option<Value>> {
        const LOWEST: i128 = i64::MIN as i128;
        Some(match (self.mistake, left, right) {
            (Mistake::OldRemainder | Mistake::RemainderNotNegative, _, Inside(..=-1 | 1..)) => None,
            (Mistake::NegativeDividendAllowed, Inside(..0), Inside(1..)) => None,
            (Mistake::NegativeDivisorAllowed, Inside(0..), Inside(..0)) => None,
            (Mistake::ZeroDivisorOfModAllowed, Inside(0..), Inside(0)) => Some(left),
            (Mistake::ZeroDivisorIsZero, Inside(_), Inside(0)) => Some(Inside(0)),
            (Mistake::LowestModMinusOneOutside, Inside(LOWEST), Inside(-1)) => Some(Outside(0)),
            (Mistake::DividendOutsideIsNegative, Outside(_), Inside(_)) => Some(Undefined),
            (Mistake::DividendOutsideHasItsSign, Outside(..0), Inside(_)) => Some(Undefined),
            (Mistake::NegativeByOutsideIsUndefined, Inside(..0), Outside(_)) => Some(Undefined),
            (Mistake::DivisorOutsideIsZero, Inside(_), Outside(..=0)) => Some(Undefined),
            _ => return None,
        })
    }

    fn combined(&self, operator: i32, a: i128, b: i128) -> Value {
        let lowest = i128::from(i64::MIN);
        let corner = a == lowest && b == -1;
        match operator {
            PLUS => self.ranged(a.wrapping_add(b)),
            MINUS => self.ranged(a.wrapping_sub(b)),
            TIMES
                if self.is(Mistake::NarrowProducts)
                    && i32::try_from(a.wrapping_mul(b)).is_err() =>
            {
                Outside(a.wrapping_mul(b))
            }
            TIMES => self.ranged(a.wrapping_mul(b)),
            DIVIDE if corner && self.is(Mistake::LowestByMinusOneWraps) => Inside(lowest),
            DIVIDE if self.is(Mistake::DivisionFloors) => {
                let down = a % b != 0 && (a < 0) != (b < 0);
                self.ranged(a / b - i128::from(down))
            }
            DIVIDE => self.ranged(a / b),
            MOD if self.is(Mistake::RemainderNotNegative) => Inside(a.rem_euclid(b)),
            MOD => Inside(a % b),
            EQUAL => Inside(i128::from(a == b)),
            LESS => Inside(i128::from(a < b)),
            _ => Inside(i128::from(a <= b)),
        }
    }

    fn connective(&self, number: i32) -> Value {
        let Node { operator, b, c, .. } = self.table.nodes[number as usize - 1];
        let left = self.value(b);
        let both = match self.mistake {
            Mistake::ConnectivesReadBoth => true,
            Mistake::EquivalentReadsBoth => operator == EQUIVALENT,
            _ => false,
        };
        if self.is(Mistake::EquivalentRightFirst) && operator == EQUIVALENT {
            let right = self.value(c);
            if !matches!(right, Inside(_)) {
                return right;
            }
        }
        let Inside(truth) = left else {
            let undefined = both && self.value(c) == Undefined;
            return if undefined { Undefined } else { left };
        };
        let decided = match operator {
            AND if !self.is(Mistake::AndReadsRight) => truth == 0,
            OR if !self.is(Mistake::OrReadsRight) => truth == 1,
            IMPLIES if !self.is(Mistake::ImpliesReadsRight) => truth == 0,
            EQUIVALENT if self.is(Mistake::EquivalentIsShort) => truth == 0,
            _ => false,
        };
        if decided {
            return Inside(i128::from(operator != AND));
        }
        let right = match self.value(c) {
            Inside(right) => right,
            _ if self.is(Mistake::FaultyRightIsFalse) => 0,
            fault => return fault,
        };
        Inside(match operator {
            AND => truth & right,
            OR => truth | right,
            IMPLIES => (1 - truth) | right,
            _ => i128::from(truth == right),
        })
    }
}
