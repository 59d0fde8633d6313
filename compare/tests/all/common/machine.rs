//! A machine whose replays and presses are counted by hand.

use super::prefix::Named;

/// Constants c, k (boolean); parameters p of add, q (boolean) of set; variables v, w, and s (boolean, shared). The abstract
/// machine has a and a parameter (boolean), which no log mentions.
pub const IDENTIFIERS: [[i32; 3]; 9] = [
    [1, 1, 0], // 1 c
    [5, 1, 4], // 2 p
    [3, 1, 0], // 3 v
    [6, 2, 0], // 4 s
    [2, 1, 0], // 5 a
    [1, 2, 0], // 6 k
    [4, 2, 2], // 7 abstract
    [5, 2, 6], // 8 q
    [3, 1, 0], // 9 w
];

/// The concrete ones are 3 the initialisation, 4 add, 5 flip (convergent), 6 set (anticipated), 7 idle.
pub const EVENTS: [[i32; 3]; 7] = [
    [1, 0, 0],
    [1, 1, 0],
    [2, 0, 0],
    [2, 1, 2],
    [2, 2, 0],
    [2, 3, 0],
    [2, 1, 2],
];

pub const FORMULAS: [Named; 21] = [
    (30, 0, 0, "< 0 i1"),                 // 0 < c
    (30, 0, 0, "= i6 TRUE"),              // k = TRUE
    (31, 0, 0, "= / 1 0 1"),              // never read
    (32, 0, 0, "false"),                  // never read
    (50, 4, 0, "< 0 i2"),                 // add: 0 < p
    (50, 4, 0, "<= + i3 i2 i1"),          // add: v + p ≤ c
    (50, 5, 0, "< 0 i3"),                 // flip: 0 < v
    (51, 1, 5, "0"),                      //
    (51, 1, 4, "FALSE"),                  //
    (51, 3, 3, "0"),                      // v := 0
    (51, 3, 4, "FALSE"),                  // s := FALSE
    (51, 4, 3, "+ i3 i2"),                // add: v := v + p
    (51, 6, 4, "i8"),                     // set: s := q
    (52, 3, 9, "<= 0 i9'"),               // w :| 0 ≤ w'
    (52, 5, 4, "= i4' bool = i4 FALSE"),  // flip: s :| s' = bool(s = FALSE)
    (52, 6, 9, "and <= i3 i9' < i9' i9"), // set: w :| v ≤ w' ∧ w' < w
    (60, 3, 5, "true"),
    (60, 4, 5, "true"),
    (60, 4, 7, "true"),
    (60, 7, 5, "true"),
    (60, 7, 7, "true"),
];
