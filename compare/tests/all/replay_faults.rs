//! The comparison of replays finds mistakes that are put in on purpose, and shows them on small tables and logs.

use crate::common;
use crate::common::faults::{
    assert_all_found, assert_same, assert_shown, assert_small, found, GATE,
};
use crate::common::plain_replay::{Mistake, Plain};
use compare::batches::{compare, compare_list};
use compare::replays::{first_batch, shown_log, Found, Replays};
use compare::runs::batch::LOGS;
use compare::runs::family::whole_family;

const MISTAKES: &[Mistake] = &[
    Mistake::NoAxioms,
    Mistake::NoSecondAxiom,
    Mistake::NoGuards,
    Mistake::NoSecondGuard,
    Mistake::NoInitialActions,
    Mistake::NoSuchThat,
    Mistake::KeptIsFree,
    Mistake::VariablesFirst,
    Mistake::VariablesByRow,
    Mistake::VariablesBackwards,
    Mistake::InvariantsToo,
    Mistake::AfterForEqual,
    Mistake::BeforeForSuchThat,
    Mistake::AnyBoolean,
    Mistake::BooleanTwo,
    Mistake::BooleanLate,
    Mistake::UnusedInEvent,
    Mistake::UnusedInValue,
    Mistake::AnyLastByte,
    Mistake::AnyLaterEvent,
    Mistake::InitialisationAgain,
    Mistake::AbstractEvent,
    Mistake::AnyFirstEvent,
    Mistake::NoAnticipated,
    Mistake::InputsFirst,
    Mistake::ConstantsUnlogged,
    Mistake::SharedUnlogged,
    Mistake::LastBadRow,
    Mistake::NextRowsFirst,
    Mistake::TornBetweenIsEnd,
    Mistake::TornInsideIsEnd,
    Mistake::TornIsRow0,
    Mistake::EndedNamesRow,
    Mistake::EndedIsRun,
    Mistake::EmptyIsRun,
    Mistake::EmptyNamesRow1,
    Mistake::LongIsRefused,
    Mistake::CountsInitialisation,
    Mistake::NumbersExchanged,
    Mistake::FalseNamesLastRow,
    Mistake::FaultNamesRow1,
    Mistake::LogFirst,
    Mistake::Wraps,
    Mistake::Saturates,
    Mistake::HighestPlusOneInside,
    Mistake::LowestMinusOneInside,
    Mistake::HighestOutside,
    Mistake::NarrowProducts,
    Mistake::NegationWraps,
    Mistake::LowestByMinusOneWraps,
    Mistake::LowestModMinusOneOutside,
    Mistake::DivisionFloors,
    Mistake::RemainderNotNegative,
    Mistake::OldRemainder,
    Mistake::NegativeDividendAllowed,
    Mistake::NegativeDivisorAllowed,
    Mistake::ZeroDivisorOfModAllowed,
    Mistake::QuotientAsRemainder,
    Mistake::ZeroDivisorIsZero,
    Mistake::PartsUncounted,
    Mistake::DivisorOutsideIsZero,
    Mistake::DividendOutsideIsNegative,
    Mistake::DividendOutsideHasItsSign,
    Mistake::NegativeByOutsideIsUndefined,
    Mistake::AndReadsRight,
    Mistake::OrReadsRight,
    Mistake::ImpliesReadsRight,
    Mistake::ConnectivesReadBoth,
    Mistake::EquivalentReadsBoth,
    Mistake::EquivalentIsShort,
    Mistake::FaultyRightIsFalse,
];

#[test]
fn no_mistake_is_no_difference() {
    let plain: &dyn Replays = &Plain(Mistake::None);
    let summary = assert_same(compare(plain, 0, GATE, 1, false));
    assert_eq!(summary.logs, GATE);
    assert_same(compare_list(plain, &whole_family(), 1));
}

/// Each is found by the generated logs alone, within those of the gate.
#[test]
fn every_mistake_is_found() {
    assert_all_found(MISTAKES.iter().copied(), |mistake| {
        first_batch(&Plain(mistake), GATE / LOGS as u64)
    });
}

/// What is shown, at most so many rows of table and log.
fn small(mistake: Mistake, table: usize, log: usize) -> Found {
    let found = found::<dyn Replays>(&Plain(mistake));
    assert_small(&found, &found.table, table);
    assert_small(&found, &found.log, log);
    found
}

#[test]
fn differences_are_shown_on_small_tables_and_logs() {
    for mistake in [
        Mistake::KeptIsFree,
        Mistake::Wraps,
        Mistake::BooleanTwo,
        Mistake::DivisorOutsideIsZero,
        Mistake::InputsFirst,
        Mistake::AfterForEqual,
        Mistake::EquivalentReadsBoth,
        Mistake::NoSecondGuard,
    ] {
        small(mistake, 30, 12);
    }
}

/// Two rows and a byte: the step isn't allowed, but what follows is looked at first.
#[test]
fn a_difference_is_shown_with_its_table_and_log_as_text() {
    let found = small(Mistake::NextRowsFirst, 8, 3);
    let replies = "\nexpected 18, value 1\ngot      18, value ";
    assert_shown(&found, &[replies, "\nits log, "]);
}

/// A table that is refused stays one that is refused.
#[test]
fn a_difference_on_a_refused_table_is_shown_on_one() {
    let found = small(Mistake::LogFirst, 2, 0);
    assert!((1..=12).contains(&found.expected.number));
    assert_eq!(found.got.number, 18);
}

/// What can't be made smaller is shown in part.
#[test]
fn a_long_log_is_shown_in_part() {
    let log = "90 1 0 0\n".repeat(1000);
    let mut bytes = common::table(&log);
    bytes.extend(b"torn");
    let shown = shown_log(&bytes);
    assert!(shown.lines().count() < 200, "{shown}");
    assert!(shown.contains("rows more"), "{shown}");
    assert!(shown.ends_with("\"torn\"\n"), "{shown}");
}
