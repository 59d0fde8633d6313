//! How often the order of two faults decides in the calls of the gate.

use compare::formula::*;
use compare::replay::Role;
use compare::statistics::two_faults::At::*;
use compare::statistics::two_faults::{At, Case, TwoFaults};

const ROLES: [Role; 4] = [Role::Axiom, Role::Guard, Role::Equal, Role::SuchThat];

/// In how many of 20,000 calls either of two faulty operands decides at this operator, at least.
const OPERATORS: [(At, usize); 9] = [
    (Arithmetic(PLUS), 30),
    (Arithmetic(MINUS), 30),
    (Arithmetic(TIMES), 20),
    (Arithmetic(DIVIDE), 15),
    (Arithmetic(MOD), 20),
    (Comparison(EQUAL), 40),
    (Comparison(LESS), 30),
    (Comparison(AT_MOST), 30),
    (BooleanEquality, 40),
];

/// In how many an operand outside decides before the operator, which is undefined or would be.
const DIVISIONS: [(Case, At, usize); 4] = [
    (Case::OutsideThenOperator, Arithmetic(DIVIDE), 20),
    (Case::OutsideThenOperator, Arithmetic(MOD), 80),
    (Case::RightThenOperator, Arithmetic(DIVIDE), 12),
    (Case::RightThenOperator, Arithmetic(MOD), 35),
];

/// In how many each case decides in any of the four sorts of formulas, and with so many operators above.
const FORMULAS: [(Case, usize); 4] = [
    (Case::OutsideThenUndefined, 35),
    (Case::UndefinedThenOutside, 45),
    (Case::OutsideThenOperator, 8),
    (Case::RightThenOperator, 4),
];

const DEPTHS: [(Case, [usize; 5]); 4] = [
    (Case::OutsideThenUndefined, [120, 70, 40, 30, 10]),
    (Case::UndefinedThenOutside, [150, 70, 80, 30, 8]),
    (Case::OutsideThenOperator, [8, 3, 60, 14, 12]),
    (Case::RightThenOperator, [1, 2, 25, 7, 1]),
];

/// Every case decides at every operator that it is about, in every formula, and at any depth.
pub fn assert_two_faults(two_faults: &TwoFaults) {
    let sides = [Case::OutsideThenUndefined, Case::UndefinedThenOutside];
    let all = OPERATORS.map(|(at, floor)| sides.map(|case| (case, at, floor)));
    for &(case, at, floor) in all.as_flattened().iter().chain(&DIVISIONS) {
        let count = two_faults.operators.get(&(case, at)).copied();
        assert!(count >= Some(floor), "{case:?} {at:?}: {count:?}");
    }
    for (case, floor) in FORMULAS {
        for role in ROLES {
            let count = two_faults.formulas.get(&(case, role)).copied();
            assert!(count >= Some(floor), "{case:?} {role:?}: {count:?}");
        }
    }
    for (case, floors) in DEPTHS {
        for (depth, floor) in floors.into_iter().enumerate() {
            let count = two_faults.depths.get(&(case, depth)).copied().unwrap_or(0);
            assert!(count >= floor, "{case:?} below {depth}: {count}");
        }
    }
}
