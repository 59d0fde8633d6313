//! Batches with which stack is measured: with the deepest formulas, at the limits, and generated.

use crate::generate::plan::{extreme, EXTREMES};
use crate::generate::random::Random;
use crate::rows::bytes_of;

/// So many generated batches are measured.
const BATCHES: u64 = 400;

/// Batches by groups with their names: the deepest, those made of the tables at the limits, and those of numbers.
pub fn groups<B>(
    deepest: Vec<B>,
    batch_of: impl Fn(Vec<u8>, &mut Random) -> B,
    batch: impl Fn(u64) -> B,
) -> [(&'static str, Vec<B>); 3] {
    let at_limits = |number: usize| {
        let mut random = Random::new(number as u64);
        let draft = extreme(number, &mut random);
        batch_of(bytes_of(&draft.rows(&mut random)), &mut random)
    };
    [
        ("deepest formulas", deepest),
        (
            "tables at the limits",
            (0..EXTREMES).map(at_limits).collect(),
        ),
        ("generated", (0..BATCHES).map(batch).collect()),
    ]
}
