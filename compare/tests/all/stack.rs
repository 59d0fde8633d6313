//! The stack that is stated, and the measurement of what calls use.

use compare::against::{Call, Reply, Services};
use compare::press::Record;
use compare::presses::Presses;
use compare::services::check;
use compare::stack::tables::groups;
use compare::stack::{measure, measure_press, STACK};
use compare::states::batch::Case;
use std::hint::black_box;

#[test]
fn the_header_states_the_stack() {
    let header = include_str!("../../../include/sifthorma.h");
    let line = format!("#define SIFTHORMA_STACK {STACK}");
    assert!(header.lines().any(|one| one == line), "{line}");
}

/// Uses at least so many bytes of stack for each byte of the table.
struct Deep;

const A_LEVEL: usize = 1000;

/// One array for each level, all alive at the deepest.
#[inline(never)]
fn go_down(levels: usize) -> u64 {
    let array = black_box([levels as u8; A_LEVEL]);
    let below = if levels > 1 { go_down(levels - 1) } else { 0 };
    below + u64::from(black_box(&array)[levels % A_LEVEL] > 0)
}

impl Services for Deep {
    fn stack(&self) -> usize {
        STACK
    }

    fn check(&self, table: &[u8]) -> Reply {
        let value = go_down(table.len());
        Reply { number: 0, value }
    }

    fn write_sequent(&self, table: &[u8], _: u64, _: &mut [u8]) -> Reply {
        self.check(table)
    }

    fn spell_entry(&self, table: &[u8], _: u64, _: u64, _: &mut [u8]) -> Reply {
        self.check(table)
    }
}

/// A press uses as much for each byte of the table, a preview for each byte of the step.
impl Presses for Deep {
    fn stack(&self) -> usize {
        STACK
    }

    fn press(&self, table: &[u8], _: &[u8], _: &mut [Record]) -> Reply {
        self.check(table)
    }

    fn preview(&self, _: &[u8], step: &[u8], _: &mut [Record], _: &mut [Record]) -> Reply {
        self.check(step)
    }
}

#[test]
fn presses_and_previews_are_measured_apart() {
    let case = Case {
        state: None,
        second: vec![],
        step: vec![1; 40],
    };
    let [press, preview] = measure_press(&Deep, &[1; 20], &case, &mut []);
    let fits = |used: usize, levels: usize| {
        (levels * A_LEVEL..3 * levels * A_LEVEL + 8192).contains(&used)
    };
    assert!(fits(press, 20), "{press}");
    assert!(fits(preview, 40), "{preview}");
    assert!(preview >= press + 20 * A_LEVEL, "{press} {preview}");
}

/// What is measured grows as the use does, and is no less.
#[test]
fn use_is_measured() {
    let used = |levels: usize| measure(&Deep, &vec![1; levels], Call::Check).1;
    let (low, high) = (used(20), used(220));
    assert!(low >= 20 * A_LEVEL, "{low}");
    let a_level = (high - low) / 200;
    assert_eq!((high - low) % 200, 0);
    // The array is made, and may be copied once.
    assert!((A_LEVEL..3 * A_LEVEL).contains(&a_level), "{a_level}");
    assert!(low < 20 * a_level + 8192, "{low}");
}

/// Groups named for a refusal have it, shared nodes are refused too, generated tables are any, all others are accepted.
#[test]
fn tables_are_what_their_groups_say() {
    for group in groups() {
        assert!(!group.tables.is_empty(), "{}", group.name);
        for (words, table) in &group.tables {
            let number = check(table).map_or_else(|refusal| refusal.number, |_| 0);
            let fits = match group.name.strip_prefix("refused by ") {
                Some(wanted) => wanted == number.to_string(),
                None if group.name.starts_with("shared") => (7..=9).contains(&number),
                None => number == 0 || group.name == "generated",
            };
            assert!(fits, "{} {words}: {number}", group.name);
        }
    }
}
