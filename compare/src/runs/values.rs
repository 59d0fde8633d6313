//! Values that are worth logging.

use crate::generate::random::Random;

/// Values at the ends of 32 bits, and whose square or cube is at an end of 32 or 64 bits.
const ENDS: [i64; 10] = [
    -2147483648,
    -2147483647,
    2147483646,
    2147483647,
    46340,
    46341,
    65536,
    -65536,
    2097151,
    2097152,
];

/// A number of 32 bits: small, at an end, or near one of these literals or other values.
pub fn any_integer(literals: &[i32], others: &[i64], random: &mut Random) -> i64 {
    let near = random.pick(&[-1, 0, 0, 1]);
    let value = match random.below(8) {
        0 | 1 => random.below(21) as i64 - 10,
        2 => random.pick(&ENDS),
        3 => random.below(1 << 16) as i64,
        4 | 5 => i64::from(random.maybe(literals).unwrap_or(0)) + near,
        _ => random.maybe(others).unwrap_or(0).saturating_add(near),
    };
    value.clamp(i64::from(i32::MIN), i64::from(i32::MAX))
}
