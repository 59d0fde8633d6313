//! The comparison of presses finds mistakes that are put in on purpose, and shows them on small tables and lists.

use crate::common::faults::{
    assert_all_found, assert_same, assert_shown, assert_small, found, GATE,
};
use crate::common::plain_press::{Mistake, Plain};
use crate::common::plain_replay::Mistake as Term;
use compare::batches::{compare, compare_list};
use compare::campaign::Report;
use compare::press::Record;
use compare::presses::{first_batch, lent, within, Call, Found, Prepared, Presses, MARGIN};
use compare::states::batch::{batch, CASES};
use compare::states::family::whole_family;
use std::sync::LazyLock;

/// All presses of the gate.
static BATCHES: LazyLock<Vec<Prepared>> = LazyLock::new(|| {
    let numbers = 0..GATE / CASES as u64;
    numbers.map(|number| Prepared::new(batch(number))).collect()
});

const MISTAKES: &[Mistake] = &[
    Mistake::LongerAccepted,
    Mistake::ShorterAccepted,
    Mistake::TypesUnjudged,
    Mistake::TypeUnjudged(1),
    Mistake::TypeUnjudged(2),
    Mistake::TypeUnjudged(3),
    Mistake::TypeUnjudged(4),
    Mistake::TypeUnjudged(5),
    Mistake::TypeUnjudged(6),
    Mistake::TypesOfVariablesAlone,
    Mistake::OwnParametersUnjudged,
    Mistake::OtherParametersUnjudged,
    Mistake::AnyKnownType,
    Mistake::TypeOfLowBits,
    Mistake::BooleansUnjudged,
    Mistake::BooleanUnjudged(1),
    Mistake::BooleanUnjudged(2),
    Mistake::BooleanUnjudged(3),
    Mistake::BooleanUnjudged(4),
    Mistake::BooleanUnjudged(5),
    Mistake::BooleanUnjudged(6),
    Mistake::BooleanTwo,
    Mistake::BooleanNegative,
    Mistake::BooleanOfLowBits,
    Mistake::ListAfterTerms,
    Mistake::ListBeforeTable,
    Mistake::SecondLongerAccepted,
    Mistake::SecondShorterAccepted,
    Mistake::SecondAfterTerms,
    Mistake::SecondTypesJudged,
    Mistake::SecondTypesUnwritten,
    Mistake::SecondVariablesAlone,
    Mistake::RowAfterAccepted,
    Mistake::TornAfterAccepted,
    Mistake::RowAfterIsLate,
    Mistake::EqualsGiven,
    Mistake::KeptGiven,
    Mistake::OtherRowSkipped,
    Mistake::SharedUngiven,
    Mistake::InputsFirst,
    Mistake::ConstantsGiven,
    Mistake::AbstractEvent,
    Mistake::Initialisation,
    Mistake::NoAnticipated,
    Mistake::UnusedInEvent,
    Mistake::UnusedInValue,
    Mistake::BooleanRowTwo,
    Mistake::EmptyIsPerformed,
    Mistake::NoAxioms,
    Mistake::NoSecondAxiom,
    Mistake::AxiomsUnjudged,
    Mistake::AxiomsAfterGuards,
    Mistake::NoGuards,
    Mistake::NoSecondGuard,
    Mistake::NoSuchThat,
    Mistake::VariablesFirst,
    Mistake::VariablesByRow,
    Mistake::VariablesBackwards,
    Mistake::SuchThatsFirst,
    Mistake::InvariantsToo,
    Mistake::EqualReadsUpdated,
    Mistake::SuchThatReadsUpdated,
    Mistake::BeforeForSuchThat,
    Mistake::ParametersOfRecords,
    Mistake::ParametersChanged,
    Mistake::AbstractVariablesToo,
    Mistake::SharedUnchanged,
    Mistake::SuchThatUnchanged,
    Mistake::KeptIsZero,
    Mistake::FirstChanged,
    Mistake::ChangedBeforeFault,
    Mistake::SecondChangedBeforeFault,
    Mistake::PastTheEnd,
    Mistake::BeforeTheStart,
    Mistake::NarrowRecords,
    Mistake::NarrowAfter,
    Mistake::WideIsRefused,
    Mistake::WideIsOutside,
    Mistake::FaultNamesRow1,
    Mistake::CountsChanges,
    Mistake::NumbersExchanged,
    Mistake::RefusedTableNamesRow0,
];

/// Replay's mistakes with terms.
const TERMS: &[Term] = &[
    Term::Wraps,
    Term::Saturates,
    Term::HighestPlusOneInside,
    Term::LowestMinusOneInside,
    Term::HighestOutside,
    Term::NarrowProducts,
    Term::NegationWraps,
    Term::LowestByMinusOneWraps,
    Term::LowestModMinusOneOutside,
    Term::DivisionFloors,
    Term::RemainderNotNegative,
    Term::OldRemainder,
    Term::NegativeDividendAllowed,
    Term::NegativeDivisorAllowed,
    Term::ZeroDivisorOfModAllowed,
    Term::QuotientAsRemainder,
    Term::ZeroDivisorIsZero,
    Term::PartsUncounted,
    Term::DivisorOutsideIsZero,
    Term::DividendOutsideIsNegative,
    Term::DividendOutsideHasItsSign,
    Term::NegativeByOutsideIsUndefined,
    Term::AndReadsRight,
    Term::OrReadsRight,
    Term::ImpliesReadsRight,
    Term::ConnectivesReadBoth,
    Term::EquivalentReadsBoth,
    Term::EquivalentIsShort,
    Term::FaultyRightIsFalse,
];

#[test]
fn no_mistake_is_no_difference() {
    assert_eq!(first_batch(&Plain(Mistake::None), &BATCHES), None);
}

/// The last batch is compared in part.
#[test]
fn as_many_presses_are_compared_as_are_asked_for() {
    let count = 4 * CASES as u64 + 7;
    let plain: &dyn Presses = &Plain(Mistake::None);
    let summary = assert_same(compare(plain, 40, count, 1, false));
    assert_eq!((summary.tables, summary.presses), (5, count));
    assert_eq!(summary.replies.0.values().sum::<u64>(), count);
    let report = summary.report();
    assert!(
        report.starts_with("5 tables, 107 presses, each with a preview\nperformed "),
        "{report}"
    );
}

#[test]
fn no_mistake_is_no_difference_in_the_family() {
    let plain: &dyn Presses = &Plain(Mistake::None);
    assert_same(compare_list(plain, &whole_family(), 1));
}

/// Each is found by the generated presses alone, within those of the gate.
#[test]
fn every_mistake_is_found() {
    let terms = TERMS.iter().map(|&one| Mistake::Term(one));
    assert_all_found(MISTAKES.iter().copied().chain(terms), |mistake| {
        first_batch(&Plain(mistake), &BATCHES)
    });
}

/// What is shown, at most so many rows of table and step.
fn small(mistake: Mistake, table: usize, step: usize) -> Found {
    let found = found::<dyn Presses>(&Plain(mistake));
    assert_small(&found, &found.table, table);
    assert_small(&found, &found.case.step, step);
    found
}

#[test]
fn differences_are_shown_on_small_tables_and_steps() {
    for mistake in [
        Mistake::EqualReadsUpdated,
        Mistake::ParametersChanged,
        Mistake::BooleanUnjudged(2),
        Mistake::AxiomsAfterGuards,
        Mistake::ChangedBeforeFault,
        Mistake::SecondTypesUnwritten,
        Mistake::Term(Term::Wraps),
    ] {
        let found = small(mistake, 24, 4);
        let records = found.case.state.expect("always there");
        assert!(records.len() <= 5, "{mistake:?}: {records:?}");
    }
}

/// Nothing but a row too many is needed.
#[test]
fn a_difference_is_shown_with_its_table_step_and_lists_as_text() {
    let found = small(Mistake::RowAfterAccepted, 7, 2);
    let words = [
        "\nexpected 18, value 0\ngot      0, value 0\n",
        "\nits step, 76 bytes:\n90 ",
        "\nthe second list before, 0 of them:\n",
    ];
    assert_shown(&found, &words);
}

/// A record that differs is shown, counted from 1; before the list is 0.
#[test]
fn a_record_that_differs_is_shown() {
    let found = found::<dyn Presses>(&Plain(Mistake::BeforeTheStart));
    assert_eq!(found.difference.call, Call::Press);
    let words = "\nthe first list differs first at record 0\nexpected ";
    assert_shown(&found, &[words, "\ngot      0 0\n"]);
}

/// A table that is refused stays one that is refused.
#[test]
fn a_difference_on_a_refused_table_is_shown_on_one() {
    let found = small(Mistake::ListBeforeTable, 2, 0);
    assert!((1..=12).contains(&found.difference.expected.reply.number));
    assert_eq!(found.difference.got.reply.number, 18);
}

#[test]
fn lists_are_lent_within_margins() {
    let list = [Record {
        value: 7,
        type_number: 1,
    }];
    let mut all = lent(&list);
    assert_eq!(all.len(), 1 + 2 * MARGIN);
    assert_eq!(within(&mut all), list);
    assert_eq!(within(&mut lent(&[])), []);
}
