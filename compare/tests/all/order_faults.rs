//! A mistake in the order of faults, which request 8 fixes, shows on the first generated logs and presses.

use crate::common::faults::{assert_all_found, assert_shown, assert_small, found};
use crate::common::plain_press;
use crate::common::plain_replay::{Mistake, Plain};
use crate::common::wrong_orders::At;
use compare::presses::{self, Prepared, Presses};
use compare::replays::{self, Replays};
use compare::states::batch::batch;

/// A mistake is found in so many batches, the first ones of the gate.
const FEW: u64 = 120;

const WRONG: [Mistake; 21] = [
    // The order that request 8 has replaced, everywhere or at some operators.
    Mistake::Former(At::All),
    Mistake::Former(At::Arithmetic),
    Mistake::Former(At::Quotients),
    Mistake::Former(At::Remainders),
    Mistake::Former(At::Comparisons),
    Mistake::Former(At::BooleanEqualities),
    Mistake::RightFirst(At::All),
    Mistake::RightFirst(At::Arithmetic),
    Mistake::RightFirst(At::Quotients),
    Mistake::RightFirst(At::Remainders),
    Mistake::RightFirst(At::Comparisons),
    Mistake::RightFirst(At::BooleanEqualities),
    Mistake::LowerNumberFirst,
    Mistake::OperatorBeforeLeft(At::Quotients),
    Mistake::OperatorBeforeLeft(At::Remainders),
    Mistake::NegativeByOutsideIsUndefined,
    Mistake::DivisorOutsideIsZero,
    Mistake::UndefinedDivisorWins,
    Mistake::OutsideWins,
    Mistake::ZeroTimesStops,
    Mistake::EquivalentRightFirst,
];

#[test]
fn every_wrong_order_is_found_in_few_logs() {
    assert_all_found(WRONG, |mistake| replays::first_batch(&Plain(mistake), FEW));
}

#[test]
fn every_wrong_order_is_found_in_few_presses() {
    let batches: Vec<Prepared> = (0..FEW)
        .map(|number| Prepared::new(batch(number)))
        .collect();
    assert_all_found(WRONG, |mistake| {
        let plain = plain_press::Plain(plain_press::Mistake::Term(mistake));
        presses::first_batch(&plain, &batches)
    });
}

/// A term outside to the left of one that isn't defined is enough.
#[test]
fn the_former_order_is_shown_on_small_tables() {
    let former = Mistake::Former(At::All);
    let words = ["\nexpected 16, value ", "\ngot      17, value "];
    let log = found::<dyn Replays>(&Plain(former));
    assert_small(&log, &log.table, 24);
    assert_shown(&log, &words);
    let former = plain_press::Plain(plain_press::Mistake::Term(former));
    let press = found::<dyn Presses>(&former);
    assert_small(&press, &press.table, 24);
    assert_shown(&press, &words);
}
