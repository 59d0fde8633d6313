//! The values of terms in a replay: at the ends of 64 bits, undefined, and which of two faults is first. Every predicate is read as
//! an axiom, a guard, and both sorts of action, at the initialisation and later.

use crate::common::prefix::laid_out;
use crate::common::{refusal, table};
use compare::checks::Refusal;
use compare::replay::{replay, NOT_A_RUN, OUTSIDE, UNDEFINED};

/// What becomes of a predicate.
#[derive(Clone, Copy, Debug, PartialEq, Eq)]
enum Is {
    True,
    False,
    Outside,
    Undefined,
}
use Is::*;

/// Words for larger terms, each built of those below it: 2⁶³ − 1, −2⁶³, 2⁶², one above 64 bits, one without value.
const SHORT: [(&str, &str); 5] = [
    ("OUT", "+ MAX 1"),
    ("UND", "/ 1 0"),
    ("MAX", "+ - BIG 1 BIG"),
    ("MIN", "* BIG -2"),
    ("BIG", "* -2147483648 -2147483648"),
];

fn long(words: &str) -> String {
    let replaced = |text: String, &(short, long): &(&str, &str)| text.replace(short, long);
    SHORT.iter().fold(words.to_string(), replaced)
}

/// Constants i1 and i2 of this run; the variable is a boolean that becomes TRUE. Events: 2 the initialisation, 3 a new one.
fn read_in(place: usize, words: &str, constants: [i32; 2]) -> Is {
    let words = long(words);
    let under_bool = format!("bool {words}");
    let (first, later) = match place {
        0 => ((51, 2, 3, "TRUE"), (30, 0, 0, &words[..])),
        1 => ((51, 2, 3, "TRUE"), (50, 3, 0, &words[..])),
        2 => ((51, 2, 3, "TRUE"), (51, 3, 3, &under_bool[..])),
        3 => ((51, 2, 3, "TRUE"), (52, 3, 3, &words[..])),
        4 => ((51, 2, 3, &under_bool[..]), (50, 3, 0, "true")),
        _ => ((52, 2, 3, &words[..]), (50, 3, 0, "true")),
    };
    let bytes = laid_out(
        &[[1, 1, 0], [1, 1, 0], [3, 2, 0]],
        &[[1, 0, 0], [2, 0, 0], [2, 3, 0]],
        &[first, later],
    );
    let [c, d] = constants;
    let log = format!("90 2 0 0; 91 1 {c} 0; 91 2 {d} 0; 91 3 1 0; 90 3 0 0; 91 3 1 0");
    // An axiom is read at the initialisation, row 1; the second step begins with row 5.
    let row = if (1..=3).contains(&place) { 5 } else { 1 };
    outcome(replay(&bytes, &table(&log)), row)
}

fn outcome(answer: Result<u64, Refusal>, row: usize) -> Is {
    match answer {
        Ok(1) => True,
        one if one == Err(refusal(NOT_A_RUN, row)) => False,
        one if one == Err(refusal(OUTSIDE, row)) => Outside,
        one if one == Err(refusal(UNDEFINED, row)) => Undefined,
        other => panic!("{other:?}"),
    }
}

/// Asks for the same outcome wherever the predicate stands.
fn assert_is(words: &str, wanted: Is) {
    assert_with(words, [0, 0], wanted);
}

fn assert_with(words: &str, constants: [i32; 2], wanted: Is) {
    for place in 0..6 {
        let is = read_in(place, words, constants);
        assert_eq!(is, wanted, "{words} with {constants:?} in place {place}");
    }
}

#[test]
fn division_rounds_toward_zero() {
    assert_is("= / -7 2 -3", True);
    assert_is("= / 7 -2 -3", True);
    assert_is("= / -7 -2 3", True);
    assert_is("= / -1 2 0", True);
}

/// 0 ≤ a and 0 < b, with the ends of both.
#[test]
fn a_remainder_is_defined_for_no_others() {
    assert_is("= mod 7 2 1", True);
    assert_is("= mod 2 7 2", True);
    assert_is("= mod 0 1 0", True);
    assert_is("= mod 0 MAX 0", True);
    assert_is("= mod MAX 1 0", True);
    assert_is("= mod MAX MAX 0", True);
    assert_is("= mod 1 MAX 1", True);
    assert_is("= mod MAX 2147483647 1", True);
    for divisor in ["1", "2", "MAX"] {
        assert_is(&format!("= mod -1 {divisor} 0"), Undefined);
        assert_is(&format!("= mod -7 {divisor} 0"), Undefined);
        assert_is(&format!("= mod MIN {divisor} 0"), Undefined);
    }
    for dividend in ["0", "1", "7", "MAX", "-1", "-7", "MIN"] {
        for divisor in ["0", "-1", "-2", "MIN"] {
            assert_is(&format!("= mod {dividend} {divisor} 0"), Undefined);
        }
    }
    assert_with("<= 0 mod i1 i2", [0, 1], True);
    assert_with("<= 0 mod i1 i2", [-1, 1], Undefined);
    assert_with("<= 0 mod i1 i2", [0, 0], Undefined);
}

/// What is undefined is read only where the order of a connective lets it be.
#[test]
fn a_remainder_may_be_guarded() {
    let guarded = "=> and <= 0 i1 < 0 i2 < mod i1 i2 i2";
    for values in [[7, 2], [0, 1], [-1, 2], [7, 0], [7, -2], [-7, -2]] {
        assert_with(guarded, values, True);
    }
    let half = "=> < 0 i2 < mod i1 i2 i2";
    assert_with(half, [7, 0], True);
    assert_with(half, [-7, 2], Undefined);
}

#[test]
fn the_ends_of_64_bits_are_inside() {
    assert_is("= MAX MAX", True);
    assert_is("< 0 MAX", True);
    assert_is("< MIN 0", True);
    assert_is("< MIN MAX", True);
    assert_is("= neg MAX + MIN 1", True);
    assert_is("= - -1 MAX MIN", True);
    assert_is("= + MIN MAX -1", True);
    assert_is("= + MAX 0 MAX", True);
    assert_is("= - MIN 0 MIN", True);
    assert_is("= * MIN 1 MIN", True);
    assert_is("= * MAX -1 + MIN 1", True);
    assert_is("= / MIN 1 MIN", True);
    assert_is("= / MAX -1 + MIN 1", True);
}

#[test]
fn one_past_the_ends_is_outside() {
    assert_is("= + MAX 1 0", Outside);
    assert_is("= + 1 MAX 0", Outside);
    assert_is("= - MIN 1 0", Outside);
    assert_is("= - -2 MAX 0", Outside);
    assert_is("= - 0 MIN 0", Outside);
    assert_is("= neg MIN 0", Outside);
    assert_is("= * MIN -1 0", Outside);
    assert_is("= * -1 MIN 0", Outside);
    assert_is("= * BIG 2 0", Outside);
    assert_is("= + BIG BIG 0", Outside);
    assert_is("= / MIN -1 0", Outside);
}

#[test]
fn the_ends_are_reached_by_logged_values() {
    let least = i32::MIN;
    // c × c × d
    let product = "<= * * i1 i1 i2 0";
    assert_with(product, [least, -2], True);
    assert_with(product, [least, 1], False);
    assert_with(product, [least, 2], Outside);
    assert_with(product, [least, -3], Outside);
    // c × c + d × d − 1: what comes first counts
    assert_with("= - + * i1 i1 * i2 i2 1 0", [least, least], Outside);
    assert_with("< 0 + - * i1 i1 1 * i2 i2", [least, least], True);
    // 2⁶³ − 11 + c
    let sum = "< 0 + - MAX 10 i1";
    assert_with(sum, [10, 0], True);
    assert_with(sum, [11, 0], Outside);
    assert_with("< + + MIN 10 i1 0", [-10, 0], True);
    assert_with("< + + MIN 10 i1 0", [-11, 0], Outside);
    // 49 × 859764727 × 218934409 is 2⁶³ − 1
    let factors = "= * * 49 i1 i2 MAX";
    assert_with(factors, [859764727, 218934409], True);
    assert_with("= + * * 49 i1 i2 1 0", [859764727, 218934409], Outside);
}

/// The value is inside, but a part of it isn't.
#[test]
fn every_part_counts() {
    assert_is("= - + BIG BIG BIG BIG", Outside);
    assert_is("= - OUT OUT 0", Outside);
    assert_is("= * 0 OUT 0", Outside);
    assert_is("= * OUT 0 0", Outside);
    assert_is("= / OUT 2 0", Outside);
    assert_is("= / 0 OUT 0", Outside);
    assert_is("= mod 0 OUT 0", Outside);
    assert_is("= neg OUT 0", Outside);
    assert_is("< 0 OUT", Outside);
    assert_is("= OUT OUT", Outside);
    assert_is("= * 0 UND 0", Undefined);
}

/// No operand of ÷ is excepted but a divisor 0.
#[test]
fn quotients_are_as_they_were() {
    assert_is("= / MIN MIN 1", True);
    assert_is("= / MAX MIN 0", True);
    assert_is("= / -1 1 -1", True);
    assert_is("= / -1 MIN 0", True);
    assert_is("= / MIN -1 0", Outside);
    assert_is("= mod MIN -1 0", Undefined);
}

/// A dividend outside, by either end or in a part, decides, whatever the divisor is.
#[test]
fn a_dividend_outside_decides() {
    for dividend in [
        "OUT",
        "neg OUT",
        "* -1 OUT",
        "- MIN 1",
        "- -1 * 0 OUT",
        "- OUT OUT",
    ] {
        for divisor in ["1", "MAX", "0", "-1", "MIN", "OUT", "UND", "* 0 OUT"] {
            assert_is(&format!("= mod {dividend} {divisor} 0"), Outside);
            assert_is(&format!("= / {dividend} {divisor} 0"), Outside);
        }
    }
}

/// The operator comes last, so that a negative dividend or an exact divisor 0 doesn't make it undefined.
#[test]
fn a_divisor_outside_comes_before_the_operator() {
    for divisor in ["OUT", "neg OUT", "- OUT OUT", "* 0 OUT", "- -1 * 0 OUT"] {
        for dividend in ["-1", "-7", "MIN", "0", "7"] {
            assert_is(&format!("= mod {dividend} {divisor} 0"), Outside);
            assert_is(&format!("= / {dividend} {divisor} 0"), Outside);
        }
        assert_is(&format!("= mod UND {divisor} 0"), Undefined);
        assert_is(&format!("= / UND {divisor} 0"), Undefined);
    }
}

/// What a remainder has below it decides first, then the remainder itself.
#[test]
fn remainders_below_remainders() {
    assert_is("= mod mod 17 10 4 3", True);
    assert_is("= mod 17 mod 17 10 3", True);
    assert_is("= mod mod -1 2 2 0", Undefined);
    assert_is("= mod 1 mod 1 -1 0", Undefined);
    assert_is("= mod 1 mod 4 2 0", Undefined);
    assert_is("= mod mod -1 OUT 0 0", Outside);
    assert_is("= mod mod -1 OUT 1 0", Outside);
    assert_is("= mod -1 mod 1 OUT 0", Outside);
    assert_is("= / mod 7 2 -1 -1", True);
    assert_is("= mod / -7 2 2 0", Undefined);
    assert_is("= + mod -1 1 OUT 0", Undefined);
    assert_is("= + mod OUT 1 mod -1 1 0", Outside);
    assert_is("= + mod -1 1 mod OUT 1 0", Undefined);
    assert_is("= + mod OUT 1 mod -1 OUT 0", Outside);
}

#[test]
fn a_divisor_0_is_undefined() {
    for operator in ["/", "mod"] {
        assert_is(&format!("= {operator} 1 0 0"), Undefined);
        assert_is(&format!("= {operator} 0 0 0"), Undefined);
        assert_is(&format!("= {operator} MIN 0 0"), Undefined);
        assert_is(&format!("= {operator} 1 - 3 3 0"), Undefined);
        assert_with(&format!("= {operator} i1 i2 0"), [0, 0], Undefined);
        assert_with(&format!("= {operator} i1 i2 0"), [0, 5], True);
    }
}

/// Left operand and right operand of every operator that reads both, and what it is then.
const SIDES: [(&str, &str, Is); 8] = [
    ("OUT", "UND", Outside),
    ("UND", "OUT", Undefined),
    ("UND", "UND", Undefined),
    ("OUT", "OUT", Outside),
    ("UND", "1", Undefined),
    ("1", "UND", Undefined),
    ("OUT", "1", Outside),
    ("1", "OUT", Outside),
];

#[test]
fn the_left_operand_decides() {
    for (left, right, is) in SIDES {
        for operator in ["+", "-", "*", "/", "mod"] {
            assert_is(&format!("= {operator} {left} {right} 0"), is);
            assert_is(&format!("= 0 {operator} {left} {right}"), is);
            assert_is(&format!("= 0 neg {operator} {left} {right}"), is);
        }
        for operator in ["=", "<", "<="] {
            assert_is(&format!("{operator} {left} {right}"), is);
        }
    }
}

/// Deep down on either side.
#[test]
fn the_leftmost_of_all_operands_decides() {
    assert_is("< + 1 * 2 OUT - 3 neg mod 4 0", Outside);
    assert_is("< - 3 neg mod 4 0 + 1 * 2 OUT", Undefined);
    assert_is("< + + 1 2 + OUT UND / 1 0", Outside);
    assert_is("= * + 1 UND OUT OUT", Undefined);
    assert_is("= - 1 - 2 - 3 + OUT UND 0", Outside);
    assert_is("= - 1 - 2 - UND + OUT 3 0", Undefined);
    assert_is("<= neg / OUT 0 neg UND", Outside);
    assert_is("<= + / 1 0 OUT OUT", Undefined);
}

/// Both operands have a value, or else one of them decides before.
#[test]
fn the_operator_itself_comes_last() {
    assert_is("= / OUT 0 0", Outside);
    assert_is("= mod OUT 0 0", Outside);
    assert_is("= mod OUT -1 0", Outside);
    assert_is("= / UND 0 0", Undefined);
    assert_is("= mod -1 UND 0", Undefined);
    assert_is("= mod -1 OUT 0", Outside);
    assert_is("= + MAX UND 0", Undefined);
    assert_is("= * 0 OUT UND", Outside);
    assert_is("= + / MIN -1 UND 0", Outside);
    assert_is("= + UND / MIN -1 0", Undefined);
}

#[test]
fn a_divisor_outside_decides_after_the_dividend() {
    for operator in ["/", "mod"] {
        assert_is(&format!("= {operator} 1 OUT 0"), Outside);
        assert_is(&format!("= {operator} OUT OUT 0"), Outside);
        // The divisor is 0, but a part of it is outside.
        assert_is(&format!("= {operator} 1 - OUT OUT 0"), Outside);
        assert_is(&format!("= {operator} 1 * 0 OUT 0"), Outside);
        assert_is(&format!("= {operator} OUT * 0 OUT 0"), Outside);
        // Something before it is undefined.
        assert_is(&format!("= {operator} UND OUT 0"), Undefined);
        assert_is(&format!("= {operator} 1 * UND OUT 0"), Undefined);
        assert_is(&format!("= {operator} 1 * OUT UND 0"), Outside);
    }
}

#[test]
fn equality_of_booleans_is_a_comparison_too() {
    assert_is("= bool < 0 OUT bool < 0 UND", Outside);
    assert_is("= bool < 0 UND bool < 0 OUT", Undefined);
    assert_is("= bool < UND OUT bool < 0 OUT", Undefined);
    assert_is("= bool < OUT UND bool < 0 UND", Outside);
    assert_is("= TRUE bool < 0 OUT", Outside);
    assert_is("= bool < 0 OUT FALSE", Outside);
    assert_is("= FALSE bool < 0 UND", Undefined);
    assert_is("= TRUE bool < 0 1", True);
    assert_is("= FALSE bool < 0 1", False);
    assert_is("= bool < 1 0 FALSE", True);
}

/// P is = OUT 0 or = UND 0; the right side isn't read after it.
#[test]
fn connectives_stop_at_a_faulty_left_side() {
    for connective in ["and", "or", "=>", "<=>"] {
        assert_is(&format!("{connective} = OUT 0 = UND 0"), Outside);
        assert_is(&format!("{connective} = UND 0 = OUT 0"), Undefined);
        for right in ["true", "false"] {
            assert_is(&format!("{connective} = OUT 0 {right}"), Outside);
            assert_is(&format!("{connective} = UND 0 {right}"), Undefined);
        }
    }
}

#[test]
fn right_sides_are_read_where_the_left_decides_nothing() {
    for (right, fault) in [("= OUT 0", Outside), ("= UND 0", Undefined)] {
        assert_is(&format!("and true {right}"), fault);
        assert_is(&format!("and false {right}"), False);
        assert_is(&format!("or false {right}"), fault);
        assert_is(&format!("or true {right}"), True);
        assert_is(&format!("=> true {right}"), fault);
        assert_is(&format!("=> false {right}"), True);
        assert_is(&format!("<=> true {right}"), fault);
        assert_is(&format!("<=> false {right}"), fault);
        assert_is(&format!("not and false {right}"), True);
        assert_is(&format!("not {right}"), fault);
        assert_is(&format!("= TRUE bool {right}"), fault);
    }
}

#[test]
fn connectives_have_their_truth_tables() {
    let tables = [
        ("and", [False, False, False, True]),
        ("or", [False, True, True, True]),
        ("=>", [True, True, False, True]),
        ("<=>", [True, False, False, True]),
    ];
    for (connective, wanted) in tables {
        let sides = ["false false", "false true", "true false", "true true"];
        for (sides, wanted) in sides.into_iter().zip(wanted) {
            assert_is(&format!("{connective} {sides}"), wanted);
        }
    }
    assert_is("not true", False);
    assert_is("not false", True);
}

#[test]
fn comparisons_are_exact() {
    for (a, b) in [(0, 0), (0, 1), (1, 0), (i32::MIN, i32::MAX), (-1, -1)] {
        let truth = |holds| if holds { True } else { False };
        assert_with("= i1 i2", [a, b], truth(a == b));
        assert_with("< i1 i2", [a, b], truth(a < b));
        assert_with("<= i1 i2", [a, b], truth(a <= b));
    }
}

/// Inside bool the connective stops, and so does the comparison around it.
#[test]
fn connectives_under_bool_stop_too() {
    assert_is("= bool and = OUT 0 = UND 0 TRUE", Outside);
    assert_is("= bool or = UND 0 = OUT 0 TRUE", Undefined);
    assert_is("= bool => = OUT 0 = UND 0 bool = UND 0", Outside);
    assert_is("= bool = UND 0 bool => = OUT 0 = UND 0", Undefined);
    assert_is("= bool and = OUT 0 = UND 0 bool and false = UND 0", Outside);
    assert_is("= bool and false = UND 0 bool <=> = OUT 0 = UND 0", Outside);
    assert_is("= bool and false = UND 0 FALSE", True);
}

/// (P9)
#[test]
fn the_order_of_a_conjunction_counts() {
    let guarded = "and not = i2 0 = / i1 i2 1";
    assert_with(guarded, [5, 0], False);
    assert_with(guarded, [5, 5], True);
    let exchanged = "and = / i1 i2 1 not = i2 0";
    assert_with(exchanged, [5, 0], Undefined);
    assert_with(exchanged, [5, 5], True);
}
