//! Tables that several tests share.

pub mod definedness;
pub mod faults;
pub mod first_fault;
pub mod former_order;
pub mod machine;
pub mod plain_press;
pub mod plain_replay;
pub mod plain_values;
pub mod prefix;
pub mod remainders;
pub mod rules;
pub mod two_faults;
pub mod wrong_orders;

use compare::against::{Call, Reply, Services};
use compare::checks::Refusal;
use compare::rows::{bytes_of, layout, Row};
use compare::services::{check, spell_entry, write_sequent};
use compare::shrink::rows_of;

/// The bytes of a table in readable text.
pub fn table(text: &str) -> Vec<u8> {
    bytes_of(&rows(text))
}

pub fn rows(text: &str) -> Vec<Row> {
    layout(text).expect("four numbers a row")
}

/// This text of a table with one row changed.
pub fn changed(text: &str, row: usize, numbers: [i32; 4]) -> Vec<u8> {
    let mut rows = rows(text);
    let [tag, a, b, c] = numbers;
    rows[row - 1] = Row::new(tag, a, b, c);
    bytes_of(&rows)
}

pub fn refusal(number: i32, row: usize) -> Refusal {
    Refusal { number, row }
}

/// What goes wrong with a call that this program has answered.
pub type Fault = fn(Call, &mut Reply, &mut [u8]);

/// Answers as this program does, but for the fault.
pub struct Faulty(pub Fault);

pub fn reply(answer: Result<usize, Refusal>) -> Reply {
    let (number, value) = match answer {
        Ok(value) => (0, value),
        Err(refusal) => (refusal.number as u64, refusal.row),
    };
    Reply {
        number,
        value: value as u64,
    }
}

impl Services for Faulty {
    /// Enough for the recursion of this program.
    fn stack(&self) -> usize {
        8 << 20
    }

    fn check(&self, table: &[u8]) -> Reply {
        let mut reply = reply(check(table));
        self.0(Call::Check, &mut reply, &mut []);
        reply
    }

    fn write_sequent(&self, table: &[u8], k: u64, out: &mut [u8]) -> Reply {
        let mut reply = reply(write_sequent(table, k as usize, out));
        let room = out.len();
        self.0(Call::Write { k, room }, &mut reply, out);
        reply
    }

    fn spell_entry(&self, table: &[u8], k: u64, j: u64, out: &mut [u8]) -> Reply {
        let mut reply = reply(spell_entry(table, k as usize, j as usize, out));
        let room = out.len();
        self.0(Call::Spell { k, j, room }, &mut reply, out);
        reply
    }
}

/// Table L of the paper.
pub const L: &str = "10 2 1 0; 10 3 1 0; 20 1 0 0; 20 1 0 0; 20 3 1 0; 20 3 2 0; 20 20 3 4;
    40 1 0 0; 40 2 0 0; 51 1 1 1; 51 2 2 2; 60 2 1 5";

/// A table with every sort of row. Node n is row n + 6.
pub const RICH: &str = "
    10 1 1 0 # 1 constant c
    10 3 1 0 # 2 concrete variable v
    10 2 2 0 # 3 abstract variable u, boolean
    10 4 1 2 # 4 parameter x of event 2
    10 5 1 4 # 5 parameter y of event 4
    10 2 1 0 # 6 abstract variable w
    20 2 1 0; 20 1 0 0; 20 20 1 2; 20 32 3 0                        # 4: not c = 0
    20 2 6 0; 20 2 1 0; 20 13 5 6; 20 1 5 0; 20 22 7 8              # 9: w / c <= 5
    20 2 3 0; 20 2 2 0; 20 2 6 0; 20 21 11 12; 20 6 13 0; 20 20 10 14 # 15: u = bool(v < w)
    20 2 4 0; 20 2 6 0; 20 21 16 17                                 # 18: x < w
    20 2 5 0; 20 2 2 0; 20 22 19 20                                 # 21: y <= v
    20 30 0 0                                                       # 22: true
    20 5 0 0; 20 1 0 0; 20 1 0 0                                    # 23: FALSE, 24: 0, 25: 0
    20 3 6 0; 20 2 4 0; 20 20 26 27                                 # 28: w' = x
    20 2 2 0; 20 2 5 0; 20 10 29 30                                 # 31: v + y
    20 3 2 0; 20 2 2 0; 20 21 32 33                                 # 34: v' < v
    20 3 3 0; 20 5 0 0; 20 20 35 36                                 # 37: u' = FALSE
    20 3 6 0; 20 3 2 0; 20 20 38 39                                 # 40: w' = v'
    20 3 6 0; 20 3 2 0; 20 20 41 42                                 # 43: w' = v'
    20 2 4 0; 20 2 5 0; 20 20 44 45                                 # 46: x = y
    20 30 0 0; 20 2 2 0                                             # 47: true, 48: v
    30 4 0 0  # row 55
    31 9 0 0  # row 56
    32 15 0 0 # row 57
    40 1 0 0; 40 1 1 0; 40 2 0 0; 40 2 1 2; 40 2 2 0                # rows 58 to 62
    50 2 18 0; 50 4 21 0; 50 5 22 0                                 # rows 63 to 65
    51 1 3 23; 51 1 6 24; 51 3 2 25; 51 4 2 31                      # rows 66 to 69
    52 2 6 28; 52 5 2 34                                            # rows 70 and 71
    60 3 3 37; 60 3 6 40; 60 4 6 43; 60 4 4 46; 60 4 3 47           # rows 72 to 76
    70 48 0 0 # row 77
";

/// Operators 1 to 36 of the paper.
pub const OPERATORS: [i32; 22] = [
    1, 2, 3, 4, 5, 6, 10, 11, 12, 13, 14, 15, 20, 21, 22, 30, 31, 32, 33, 34, 35, 36,
];

/// Whether a node of the table has this operator.
pub fn has(table: &[u8], operator: i32) -> bool {
    let rows = rows_of(table).expect("rows");
    rows.iter().any(|row| row.tag == 20 && row.a == operator)
}

/// A formula in each sort of row, of a product that becomes a division: node n is row n + 4.
pub const PLACES: &str = "
    10 1 1 0 # 1 constant c
    10 2 1 0 # 2 abstract variable u
    10 3 1 0 # 3 concrete variable v
    10 4 1 2 # 4 parameter p of event 2
    20 2 1 0; 20 2 1 0; 20 12 1 2; 20 1 0 0; 20 20 3 4       # 5: c * c = 0
    20 2 1 0; 20 2 1 0; 20 12 6 7; 20 2 2 0; 20 20 8 9       # 10: c * c = u
    20 2 1 0; 20 2 1 0; 20 12 11 12; 20 2 3 0; 20 20 13 14   # 15: c * c = v
    20 2 1 0; 20 2 1 0; 20 12 16 17; 20 1 0 0; 20 20 18 19   # 20: c * c = 0
    20 2 1 0; 20 2 1 0; 20 12 21 22; 20 1 0 0; 20 20 23 24   # 25: c * c = 0
    20 2 1 0; 20 2 1 0; 20 12 26 27                          # 28: c * c
    20 2 1 0; 20 2 1 0; 20 12 29 30; 20 3 2 0; 20 20 31 32   # 33: c * c = u'
    20 2 1 0; 20 2 1 0; 20 12 34 35                          # 36: c * c
    20 2 1 0; 20 2 1 0; 20 12 37 38; 20 3 3 0; 20 20 39 40   # 41: c * c = v'
    20 2 1 0; 20 2 1 0; 20 12 42 43; 20 3 2 0; 20 20 44 45   # 46: c * c = u'
    20 2 1 0; 20 2 1 0; 20 12 47 48; 20 3 2 0; 20 20 49 50   # 51: c * c = u'
    20 2 1 0; 20 2 1 0; 20 12 52 53; 20 2 4 0; 20 20 54 55   # 56: c * c = p
    20 2 1 0; 20 2 1 0; 20 12 57 58                          # 59: c * c
    30 5 0 0; 31 10 0 0; 32 15 0 0
    40 1 0 0; 40 1 1 0; 40 2 0 0; 40 2 1 2; 40 2 2 0
    50 2 20 0; 50 4 25 0; 51 1 2 28; 51 3 3 36; 52 2 2 33; 52 4 3 41
    60 3 2 46; 60 4 2 51; 60 4 4 56; 70 59 0 0
";

/// Invariants that mention nothing but one identifier, or two, and events that set one or none. Node n is row n + 6.
pub const INVARIANTS: &str = "
    10 1 1 0 # 1 constant c
    10 2 1 0 # 2 abstract variable a
    10 2 1 0 # 3 abstract variable b
    10 6 1 0 # 4 shared variable s
    10 3 1 0 # 5 concrete variable x
    10 3 1 0 # 6 concrete variable y
    20 2 1 0; 20 2 1 0; 20 20 1 2; 20 2 2 0; 20 2 2 0; 20 20 4 5      # 3: c = c, 6: a = a
    20 2 3 0; 20 2 3 0; 20 20 7 8; 20 2 4 0; 20 2 4 0; 20 20 10 11    # 9: b = b, 12: s = s
    20 2 1 0; 20 2 1 0; 20 20 13 14; 20 2 5 0; 20 2 5 0; 20 20 16 17  # 15: c = c, 18: x = x
    20 2 6 0; 20 2 6 0; 20 20 19 20; 20 2 4 0; 20 2 4 0; 20 20 22 23  # 21: y = y, 24: s = s
    20 2 2 0; 20 2 2 0; 20 20 25 26; 20 2 5 0; 20 2 6 0; 20 20 28 29  # 27: a = a, 30: x = y
    20 1 0 0; 20 1 0 0; 20 1 0 0; 20 2 2 0; 20 30 0 0                 # 31 to 33: 0, 34: a, 35: true
    20 1 0 0; 20 1 0 0; 20 1 0 0; 20 30 0 0; 20 30 0 0                # 36 to 38: 0, 39 and 40: true
    20 30 0 0; 20 30 0 0; 20 1 0 0; 20 2 4 0; 20 30 0 0               # 41 and 42: true, 43: 0, 44: s, 45: true
    20 1 0 0                                                          # 46: 0
    31 3 0 0; 31 6 0 0; 31 9 0 0; 31 12 0 0
    32 15 0 0; 32 18 0 0; 32 21 0 0; 32 24 0 0; 32 27 0 0; 32 30 0 0
    40 1 0 0; 40 1 1 0; 40 1 1 0; 40 1 1 0; 40 2 0 0                  # events 1 to 5
    40 2 1 2; 40 2 2 0; 40 2 2 0; 40 2 3 0; 40 2 3 0                  # events 6 to 10
    51 1 2 31; 51 1 3 32; 51 1 4 33; 51 3 2 34; 51 5 4 36; 51 5 5 37; 51 5 6 38; 51 8 5 43; 51 9 4 44
    52 4 4 35; 52 10 6 45
    60 5 2 39; 60 5 3 40; 60 6 2 41; 60 6 3 42; 70 46 0 0
";
