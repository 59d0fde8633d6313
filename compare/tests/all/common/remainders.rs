//! How often mod decides in the calls of the gate, and how often it is worked out.

use compare::replay::term::Fault;
use compare::statistics::remainders::Operand::*;
use compare::statistics::remainders::{Operand, Pair, Remainders, ENDS};

/// How many of 20,000 calls are decided by a mod of such operands, at least.
const DECIDED: [(Fault, Pair, usize); 11] = [
    (Fault::Undefined, (Negative, Positive), 150),
    (Fault::Undefined, (Negative, Zero), 30),
    (Fault::Undefined, (Negative, Negative), 150),
    (Fault::Undefined, (Zero, Zero), 80),
    (Fault::Undefined, (Zero, Negative), 60),
    (Fault::Undefined, (Positive, Zero), 80),
    (Fault::Undefined, (Positive, Negative), 150),
    (Fault::Outside, (Outside, Zero), 25),
    (Fault::Outside, (Outside, Negative), 25),
    (Fault::Outside, (Outside, Positive), 25),
    (Fault::Outside, (Negative, Outside), 25),
];

/// Every way in which mod decides 16 or 17 occurs, and it is worked out often enough.
pub fn assert_remainders(remainders: &Remainders) {
    for (fault, pair, floor) in DECIDED {
        let count = remainders.decided.get(&(fault, pair)).copied();
        assert!(count >= Some(floor), "{fault:?} {pair:?}: {count:?}");
    }
    let beside = |dividend: Operand| -> usize {
        let pairs = remainders.beside.iter();
        pairs
            .filter(|one| one.0 .0 == dividend)
            .map(|one| one.1)
            .sum()
    };
    assert!(beside(Negative) >= 15, "{}", beside(Negative));
    assert!(beside(Positive) >= 8, "{}", beside(Positive));
    for values in ENDS {
        let count = remainders.ends.get(&values).copied();
        assert!(count >= Some(8), "{values:?}: {count:?}");
    }
    assert!(remainders.accepted >= 1000, "{}", remainders.accepted);
    for (pair, floor) in [((Zero, Positive), 150), ((Positive, Positive), 800)] {
        let count = remainders.worked_out.get(&pair).copied();
        assert!(count >= Some(floor), "{pair:?}: {count:?}");
    }
    // No other operands have a remainder.
    assert_eq!(
        remainders.worked_out.len(),
        2,
        "{:?}",
        remainders.worked_out
    );
}
