//! Sequents in SMT-LIB: a script word for word, scripts that declare what they mention, and terms with the formulas' values.

use crate::common::{model, read, run, spelled};
use crate::script::{commands, value, Functions, Known, Reading};
use compare::generate::random::Random;
use sifthorma::evaluate::{evaluate, is_boolean, NoValue, Value, Values};
use sifthorma::formula::operator::*;
use sifthorma::formula::{Formula, Mention};
use sifthorma::library::check;
use sifthorma::smt::{Smt, PREAMBLE};
use sifthorma::source::Source;
use std::collections::BTreeSet;

const MODELS: [&str; 5] = [
    "L.txt",
    "counter.eb",
    "double_release.eb",
    "free_list.eb",
    "placing_head.eb",
];

/// Sequent 29 of models/counter.eb: carry keeps done = base ∗ tens + ones.
const CARRY: &str = "\
(set-option :produce-models true)
(set-logic UFNIA)
; a ÷ b, toward zero, 0 for b = 0; a mod b = a − b × (a ÷ b), 0 but for 0 ≤ a and 0 < b
(define-fun quotient ((a Int) (b Int)) Int
  (ite (= b 0) 0 (ite (<= 0 a) (div a b) (- (div (- a) b)))))
(define-fun remainder ((a Int) (b Int)) Int
  (ite (and (<= 0 a) (< 0 b)) (- a (* b (quotient a b))) 0))
; sequent 29: carry/inv1/INV
(declare-const base Int)
(declare-const limit Int)
(declare-const done Int)
(declare-const |done'| Int)
(declare-const tens Int)
(declare-const |tens'| Int)
(declare-const ones Int)
(declare-const |ones'| Int)
(assert (<= 2 base)) ; axm1
(assert (<= 0 limit)) ; axm2
(assert (<= 0 done)) ; inv1
(assert (<= done limit)) ; inv2
(assert (= done (+ (* base tens) ones))) ; inv1
(assert (<= 0 tens)) ; inv2
(assert (<= 0 ones)) ; inv3
(assert (<= base ones)) ; grd1
(assert (= |tens'| (+ tens (quotient ones base)))) ; act1
(assert (= |ones'| (remainder ones base))) ; act2
(assert (= |done'| done)) ; done
(assert (not (= |done'| (+ (* base |tens'|) |ones'|)))) ; the goal, denied
(check-sat)
";

/// Names that SMT-LIB, a prover or the preamble has for itself, or that aren't plain words there.
const NAMES: &str = "div and exists forall let ite abs distinct xor store select match par as _
assert push pop echo exit reset include simplify quotient remainder min max rem iff implies lambda const
BINARY DECIMAL HEXADECIMAL NUMERAL STRING Int Bool größe ψ 速度 x² ﬀ";

/// A machine and its refinement over constants with these names, with two parameters of one name.
fn with_names(names: &[&str]) -> String {
    let joined = names.join(", ");
    let sum = names.join(" + ");
    format!(
        "context c0 constants {joined} ∈ ℤ axioms @axm1 0 ≤ {sum} end
machine m sees c0 variables v ∈ ℤ invariants @inv1 0 ≤ v events
  event INITIALISATION then @act1 v ≔ 0 end
  event go any x ∈ ℤ where @grd1 0 ≤ x then @act1 v ≔ x end
end
machine n refines m sees c0 variables w ∈ ℤ invariants @inv1 w = v events
  event INITIALISATION with @v' v' = w' then @act1 w ≔ 0 end
  event go refines go any x ∈ ℤ where @grd1 0 ≤ x with @v' v' = w' then @act1 w ≔ x end
end
"
    )
}

#[test]
fn a_script_word_for_word() {
    assert_eq!(run(&["smt", "models/counter.eb", "29"]).output, CARRY);
}

#[test]
fn a_script_asks_once_a_sequent() {
    for file in MODELS {
        let source = Source::of(file, &model(file)).expect("no mistake");
        let count = check(&source.bytes).expect("accepted");
        let script = run(&["smt", &format!("models/{file}")]).output;
        assert_eq!(Reading::of(&script).questions as u64, count, "{file}");
        let alone = run(&["smt", &format!("models/{file}"), "2"]).output;
        assert_eq!(Reading::of(&alone).questions, 1, "{file}");
    }
}

/// Whatever a name is, a script declares it, and once.
#[test]
fn names_do_not_clash() {
    let names: Vec<&str> = NAMES.split_whitespace().collect();
    let source = read(&with_names(&names)).expect("no mistake");
    let smt = Smt {
        table: &source.table,
        names: &source.names,
    };
    let questions = spelled(&source);
    assert_eq!(questions.len(), 10);
    for one in &questions {
        let script = format!("{PREAMBLE}{}", smt.question(one));
        assert_eq!(Reading::of(&script).questions, 1);
    }
    let both = |identifier| [false, true].map(|after| Mention { identifier, after });
    let mentions: Vec<Mention> = (1..=names.len() + 4).flat_map(both).collect();
    let symbols = mentions.iter().map(|&mention| smt.symbol(mention));
    let symbols: BTreeSet<String> = symbols.collect();
    assert_eq!(symbols.len(), mentions.len());
    assert!(symbols.contains("m.go.x") && symbols.contains("n.go.x"));
    assert!(symbols.contains("|größe|"));
    // cvc5 has the last two for itself, though SMT-LIB hasn't
    for taken in ["div", "quotient", "store", "include", "simplify"] {
        assert!(!symbols.contains(taken), "{taken}");
    }
}

/// The functions that scripts define, read from the text.
fn functions() -> Functions {
    Reading::of(PREAMBLE).functions
}

/// The model over which formulas are made: identifiers 1 and 2 are integers, 3 and 4 booleans, 5 and 6 variables of both types.
fn over() -> Source {
    read(
        "context c0 constants a, b ∈ ℤ p, q ∈ BOOL end
machine m sees c0 variables v ∈ ℤ f ∈ BOOL end",
    )
    .expect("no mistake")
}

/// An integer from minus `most` to `most`.
fn small(random: &mut Random, most: i64) -> i64 {
    random.between(0, 2 * most as usize) as i64 - most
}

/// Random formulas of each sort, at most so deep, with literals from minus `most` to `most`.
struct Formulas<'a> {
    random: &'a mut Random,
    most: i64,
}

impl Formulas<'_> {
    fn leaf(&mut self, leaves: &[(i64, i64)]) -> Formula {
        let (operator, number) = self.random.pick(leaves);
        Formula::leaf(operator, number, 0)
    }

    fn integer(&mut self, deep: usize) -> Formula {
        if deep == 0 || self.random.one_in(4) {
            let literal = small(self.random, self.most);
            let names = [
                (IDENTIFIER, 1),
                (IDENTIFIER, 2),
                (IDENTIFIER, 5),
                (AFTER, 5),
            ];
            return self.leaf(&[&names[..], &[(LITERAL, literal)]].concat());
        }
        let operator = self
            .random
            .pick(&[PLUS, MINUS, TIMES, DIVIDE, MOD, NEGATION]);
        let mut operands = vec![self.integer(deep - 1)];
        if operator != NEGATION {
            operands.push(self.integer(deep - 1));
        }
        Formula::new(operator, operands, 0)
    }

    fn boolean(&mut self, deep: usize) -> Formula {
        if deep == 0 || self.random.one_in(2) {
            let names = [
                (IDENTIFIER, 3),
                (IDENTIFIER, 4),
                (IDENTIFIER, 6),
                (AFTER, 6),
            ];
            return self.leaf(&[&names[..], &[(TRUE, 0), (FALSE, 0)]].concat());
        }
        Formula::new(BOOL, vec![self.predicate(deep - 1)], 0)
    }

    fn predicate(&mut self, deep: usize) -> Formula {
        if deep == 0 {
            return self.leaf(&[(TOP, 0), (BOTTOM, 0)]);
        }
        let comparisons = [EQUAL, LESS, AT_MOST];
        let connectives = [NOT, AND, OR, IMPLIES, IFF];
        let operator = self.random.pick(&[&comparisons[..], &connectives].concat());
        let operands = match operator {
            EQUAL if self.random.one_in(2) => vec![self.boolean(deep - 1), self.boolean(deep - 1)],
            EQUAL | LESS | AT_MOST => vec![self.integer(deep - 1), self.integer(deep - 1)],
            NOT => vec![self.predicate(deep - 1)],
            _ => vec![self.predicate(deep - 1), self.predicate(deep - 1)],
        };
        Formula::new(operator, operands, 0)
    }

    /// "Some value of" or "some after value of" an identifier of each type, over a predicate.
    fn existence(&mut self, deep: usize) -> Formula {
        let bound = [
            (SOME_VALUE, 1),
            (SOME_VALUE, 3),
            (SOME_AFTER, 5),
            (SOME_AFTER, 6),
        ];
        let mut formula = self.leaf(&bound);
        formula.operands = vec![self.predicate(deep)];
        formula
    }
}

/// Random values of whatever a formula mentions.
fn values_of(formula: &Formula, source: &Source, random: &mut Random, most: i64) -> Values {
    let mentions = formula.free().into_iter();
    let valued = mentions.map(|mention| {
        let value = match is_boolean(&source.table, mention) {
            true => Value::Truth(random.one_in(2)),
            false => Value::Integer(small(random, most).into()),
        };
        (mention, value)
    });
    valued.collect()
}

/// Compares a term with its formula, with random values of what they mention; false where the formula has no value here.
fn compares(formula: &Formula, source: &Source, random: &mut Random, most: i64) -> bool {
    let smt = Smt {
        table: &source.table,
        names: &source.names,
    };
    let values = values_of(formula, source, random, most);
    let expected = evaluate(formula, &source.table, &values);
    if expected == Err(NoValue::NotFound) {
        return false;
    }
    let known = values.iter().map(|(&mention, &value)| {
        let symbol = smt.symbol(mention);
        (symbol.trim_matches('|').to_string(), value)
    });
    let known: Known = known.collect();
    let text = smt.term(formula);
    let found = value(&commands(&text)[0], &known, &functions());
    assert_eq!(Ok(found), expected, "{text} with {known:?}");
    true
}

fn operators(formula: &Formula) -> BTreeSet<i64> {
    let mut operators: BTreeSet<i64> = formula.operands.iter().flat_map(operators).collect();
    operators.insert(formula.operator);
    operators
}

#[test]
fn terms_have_the_values_of_their_formulas() {
    let source = over();
    let mut random = Random::new(1);
    let mut seen = BTreeSet::new();
    for _ in 0..20_000 {
        let formulas = &mut Formulas {
            random: &mut random,
            most: 7,
        };
        let formula = formulas.predicate(4);
        seen.extend(operators(&formula));
        assert!(compares(&formula, &source, &mut random, 7));
    }
    let all = [1..=6, 10..=15, 20..=22, 30..=36];
    assert_eq!(seen, all.into_iter().flatten().collect());
}

/// With small numbers: the reading of the script tries integers, and would miss one that is far away.
#[test]
fn exists_has_the_value_of_some_value() {
    let source = over();
    let mut random = Random::new(3);
    let mut compared = 0;
    for _ in 0..4_000 {
        let formulas = &mut Formulas {
            random: &mut random,
            most: 2,
        };
        let formula = formulas.existence(3);
        compared += usize::from(compares(&formula, &source, &mut random, 2));
    }
    assert!(compared > 3_500, "{compared}");
}

/// Every entry of the models, as the library spells it.
#[test]
fn entries_have_the_values_of_their_formulas() {
    let mut random = Random::new(2);
    for file in MODELS {
        let source = Source::of(file, &model(file)).expect("no mistake");
        for one in spelled(&source) {
            for formula in one.hypotheses.iter().chain([&one.goal]) {
                assert!(compares(formula, &source, &mut random, 7), "{file}");
            }
        }
    }
}

#[test]
fn the_preamble_divides_as_sequents_do() {
    let functions = functions();
    let of = |text: String| value(&commands(&text)[0], &Known::new(), &functions);
    let written = |n: i128| match n < 0 {
        true => format!("(- {})", -n),
        false => n.to_string(),
    };
    for (a, b) in (-20..=20).flat_map(|a| (-20..=20).map(move |b| (a, b))) {
        let quotient = if b == 0 { 0 } else { a / b };
        let remainder = if a < 0 || b <= 0 { 0 } else { a % b };
        let operands = format!("{} {}", written(a), written(b));
        let found = of(format!("(quotient {operands})"));
        assert_eq!(found, Value::Integer(quotient), "{a} ÷ {b}");
        let found = of(format!("(remainder {operands})"));
        assert_eq!(found, Value::Integer(remainder), "{a} mod {b}");
    }
}
