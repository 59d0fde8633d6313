//! Values that are worth keeping in a record.

use crate::generate::random::Random;
use crate::press::Record;
use crate::runs::values::any_integer;
use crate::table::{Table, BOOLEAN};

/// Values around which an integer of 64 bits may be told from a shorter or a longer one.
const ENDS: [i64; 11] = [
    0,
    1 << 31,
    -(1 << 31),
    1 << 32,
    -(1 << 32),
    1 << 53,
    1 << 62,
    -(1 << 62),
    i64::MAX,
    i64::MIN,
    3_037_000_500, // its square is just outside
];

/// A number of 64 bits: small, of 32 bits, near an end, or any.
pub fn wide_integer(random: &mut Random) -> i64 {
    match random.below(10) {
        0..=2 => random.below(21) as i64 - 10,
        3 | 4 => any_integer(&[], &[], random),
        5..=8 => {
            let near = random.below(5) as i64 - 2;
            random.pick(&ENDS).saturating_add(near)
        }
        _ => (random.draw() << 32 ^ random.draw()) as i64,
    }
}

/// A record that fits this type.
pub fn fitting_record(type_number: i32, random: &mut Random) -> Record {
    let value = match type_number {
        BOOLEAN => random.below(2) as i64,
        _ => wide_integer(random),
    };
    Record {
        value,
        type_number: type_number as u64,
    }
}

/// A record that may fit no type.
pub fn any_record(random: &mut Random) -> Record {
    let value = wide_integer(random);
    let type_number = random.pick(&[0, 1, 1, 2, 2, 3, 1 << 63, u64::MAX]);
    Record { value, type_number }
}

/// What a second list may hold before a preview: the same types, none, or anything.
pub fn second_list(table: &Table, random: &mut Random) -> Vec<Record> {
    let types = table.identifiers.iter().map(|one| one.type_number);
    match random.below(4) {
        0 => types.map(|one| fitting_record(one, random)).collect(),
        1 => types.map(|_| Record::default()).collect(),
        _ => types.map(|_| any_record(random)).collect(),
    }
}
