//! The notation: formulas as typed and as written back, other spellings of one text, and every mistake with its place.

use crate::common::{edited, model, read};
use sifthorma::formula::{operand_count, operator, written as write_formula, Formula};
use sifthorma::library;
use sifthorma::rows::lay_out;
use sifthorma::source::{Form, Source};
use sifthorma::table::tag;

/// The formula in the only axiom of a text with constants a, b, c and p.
fn formula(typed: &str) -> Formula {
    let constants = "constants a, b, c ∈ ℤ p ∈ BOOL";
    let text = format!("context c0 {constants} axioms @axm1 {typed} end machine m end");
    let source = read(&text).unwrap_or_else(|mistake| panic!("{typed}: {mistake}"));
    let (_, axiom) = source.table.tagged(tag::AXIOM).next().expect("an axiom");
    source.table.formula(axiom.a).expect("a formula")
}

fn written(formula: &Formula) -> String {
    write_formula(formula, &|number| {
        ["a", "b", "c", "p"][number - 1].to_string()
    })
}

/// Formulas as they are typed, and as they are written.
const FORMULAS: &str = "
    a + b ∗ c               | a + b ∗ c
    a ∗ b + c               | a ∗ b + c
    (a ∗ b) + c             | a ∗ b + c
    (a + b) ∗ c             | (a + b) ∗ c
    a + b − c               | a + b − c
    a − b − c               | a − b − c
    (a − b) − c             | a − b − c
    a − (b − c)             | a − (b − c)
    a + (b + c)             | a + (b + c)
    a ÷ b ∗ c mod a         | a ÷ b ∗ c mod a
    a ÷ (b ∗ c)             | a ÷ (b ∗ c)
    −a                      | −a
    −a ∗ b                  | −(a ∗ b)
    (−a) ∗ b                | (−a) ∗ b
    −a + b                  | (−a) + b
    −(a + b)                | −(a + b)
    −a mod b − c            | (−(a mod b)) − c
    −(−a)                   | −(−a)
    a − (−b)                | a − (−b)
    −5                      | −5
    − 5                     | −5
    −5 ∗ a                  | (−5) ∗ a
    −5 + a                  | (−5) + a
    a − 5                   | a − 5
    a −5                    | a − 5
    a − (−5)                | a − (−5)
    −(5)                    | −(5)
    −(5) ∗ a                | −(5 ∗ a)
    −(−5)                   | −(−5)
    −0                      | 0
    007                     | 7
    −2147483648 ≤ a         | −2147483648 ≤ a
    a ≤ 2147483647          | a ≤ 2147483647
    a' = b                  | a' = b
    a′ = b                  | a' = b
    a + b = c ∗ a           | a + b = c ∗ a
    −a < −5                 | −a < −5
    a > b                   | b < a
    a ≥ b                   | b ≤ a
    a ≠ b                   | a ≠ b
    ¬(a = b)                | a ≠ b
    ¬a = b                  | a ≠ b
    ¬(a ≠ b)                | ¬(a ≠ b)
    ¬a < b                  | ¬(a < b)
    ¬¬a < b                 | ¬¬(a < b)
    ¬¬a ≠ b                 | ¬¬(a ≠ b)
    ¬⊤ ∧ ⊥                  | ¬⊤ ∧ ⊥
    ¬(⊤ ∧ ⊥)                | ¬(⊤ ∧ ⊥)
    ⊤ ∧ ⊥ ∧ ⊤               | ⊤ ∧ ⊥ ∧ ⊤
    (⊤ ∧ ⊥) ∧ ⊤             | ⊤ ∧ ⊥ ∧ ⊤
    ⊤ ∧ (⊥ ∧ ⊤)             | ⊤ ∧ (⊥ ∧ ⊤)
    ⊤ ∨ ⊥ ∨ ⊤               | ⊤ ∨ ⊥ ∨ ⊤
    (⊤ ∧ ⊥) ∨ ⊤             | (⊤ ∧ ⊥) ∨ ⊤
    ⊤ ∧ (⊥ ∨ ⊤)             | ⊤ ∧ (⊥ ∨ ⊤)
    a < b ∧ b < c ⇒ a < c   | a < b ∧ b < c ⇒ a < c
    ⊤ ∨ ⊥ ⇔ ⊥ ∨ ⊤           | ⊤ ∨ ⊥ ⇔ ⊥ ∨ ⊤
    (⊤ ⇒ ⊥) ⇒ ⊤             | (⊤ ⇒ ⊥) ⇒ ⊤
    ⊤ ⇒ (⊥ ⇔ ⊤)             | ⊤ ⇒ (⊥ ⇔ ⊤)
    (⊤ ⇔ ⊥) ∧ ⊤             | (⊤ ⇔ ⊥) ∧ ⊤
    p = TRUE                | p = TRUE
    p = bool(a < b ⇒ ⊥)     | p = bool(a < b ⇒ ⊥)
    bool(p = FALSE) ≠ p     | bool(p = FALSE) ≠ p
    ((a)) = (((b)))         | a = b
";

#[test]
fn formulas_are_written_back() {
    for line in FORMULAS.trim().lines() {
        let (typed, expected) = line.split_once(" | ").expect("typed | written");
        assert_eq!(written(&formula(typed)), expected.trim(), "typed: {typed}");
        assert_eq!(written(&formula(expected)), expected.trim(), "written");
    }
}

/// Operators without operands, with their numbers; and those with operands.
const LEAVES: [(i64, i64); 8] = [
    (operator::IDENTIFIER, 1),
    (operator::AFTER, 2),
    (operator::LITERAL, 7),
    (operator::LITERAL, -7),
    (operator::TRUE, 0),
    (operator::FALSE, 0),
    (operator::TOP, 0),
    (operator::BOTTOM, 0),
];
const OTHERS: [i64; 15] = [6, 10, 11, 12, 13, 14, 15, 20, 21, 22, 32, 33, 34, 35, 36];

/// All formulas that are at most so deep, along one operand of each operator; its other operand is a name.
fn formulas_of_depth(depth: usize) -> Vec<Formula> {
    let leaves = LEAVES.map(|(operator, number)| Formula::leaf(operator, number, 0));
    let mut formulas = leaves.to_vec();
    if depth > 1 {
        let below = formulas_of_depth(depth - 1);
        for operator in OTHERS {
            for place in 0..operand_count(operator) {
                formulas.extend(below.iter().map(|inner| {
                    let mut operands = vec![leaves[0].clone(); operand_count(operator)];
                    operands[place] = inner.clone();
                    Formula::new(operator, operands, 0)
                }));
            }
        }
    }
    formulas
}

/// The operators and numbers of a formula, without its places.
fn shape(formula: &Formula) -> Vec<(i64, i64)> {
    let operands = formula.operands.iter().flat_map(shape);
    let own = (formula.operator, formula.number);
    [own].into_iter().chain(operands).collect()
}

/// Every operator in every operand of every operator, three times over; sorts are the library's.
#[test]
fn all_shallow_formulas_come_back() {
    let formulas = formulas_of_depth(4);
    assert_eq!(formulas.len(), 8 * (1 + 27 * (1 + 27 * (1 + 27))));
    for one in &formulas {
        let text = written(one);
        assert_eq!(shape(&formula(&text)), shape(one), "{text}");
    }
}

/// Signs as Event-B has them, and as they are typed without them.
const TYPED: [(&str, &str); 20] = [
    ("∧", "&"),
    ("∨", " or "),
    ("¬", " not "),
    ("⇒", "=>"),
    ("⇔", "<=>"),
    ("≤", "<="),
    ("≥", ">="),
    ("≠", "/="),
    ("≔", ":="),
    (":∣", ":|"),
    ("∈", ":"),
    ("ℤ", "INT"),
    ("−", "-"),
    ("∗", "*"),
    ("÷", "/"),
    ("⊤", " true "),
    ("⊥", " false "),
    ("ℤ", " INT "),
    ("∗", "×"),
    ("'", "′"),
];

/// A text that has every sign.
const ALL_SIGNS: &str = "
context k
constants c ∈ ℤ
axioms
  @a1 (1 ≤ c ∧ 2 ≥ c) ∨ ¬(c ≠ 3)
  @a2 ⊤ ⇒ ⊥
  @a3 ⊤ ⇔ c − 1 < c ∗ 2 ÷ 3 mod 4
end
machine m sees k
variables v ∈ ℤ w ∈ BOOL
events
  event INITIALISATION
    then
      @a1 v ≔ −c
      @a2 w :∣ w' = bool(c > 0)
  end
end
";

fn models() -> Vec<String> {
    let names = ["counter.eb", "placing_head.eb", "free_list.eb"];
    let texts = names.map(|name| String::from_utf8(model(name)).expect("UTF-8"));
    [&texts[..], &[ALL_SIGNS.to_string()]].concat()
}

#[test]
fn every_sign_has_another_spelling() {
    for text in models() {
        let first = read(&text).expect("a text");
        for (sign, typed) in TYPED {
            let second = read(&text.replace(sign, typed)).expect("a text");
            assert!(second.bytes == first.bytes, "{typed}");
        }
    }
    let spell = |text: String, (sign, typed): &(&str, &str)| text.replace(sign, typed);
    let plain = TYPED[..17].iter().fold(ALL_SIGNS.to_string(), spell);
    assert!(plain.is_ascii());
    let (first, second) = (
        read(ALL_SIGNS).expect("a text"),
        read(&plain).expect("a text"),
    );
    assert_eq!(second.bytes, first.bytes);
}

const KEYWORDS: &str = "context constants axioms machine refines sees variables invariants variant events event convergent \
    anticipated any where with then end";

/// Line ends of two bytes, tabs, a byte order mark, comments and capital keywords change neither bytes nor lines.
#[test]
fn blanks_and_keywords_have_other_spellings() {
    let capital = |text: &str| {
        let words = text.split_inclusive([' ', '\n']).map(|word| {
            let keyword = KEYWORDS.split_whitespace().any(|one| one == word.trim());
            if keyword {
                word.to_uppercase()
            } else {
                word.to_string()
            }
        });
        words.collect::<String>()
    };
    for text in models() {
        let first = read(&text).expect("a text");
        let others = [
            text.replace('\n', "\r\n"),
            text.replace("  ", "\t"),
            text.replace(' ', "\u{a0}\u{b}"),
            format!("\u{feff}{text}"),
            text.replace(' ', " /* not a ** comment */ "),
            text.replace('\n', "// end\n"),
            text.replace(" then", " begin").replace(" where", " when"),
            text.replace("  event ", "  ordinary event "),
            capital(&text),
        ];
        for other in others {
            let second = read(&other).unwrap_or_else(|mistake| panic!("{mistake}\n{other}"));
            assert!(second.bytes == first.bytes, "{other}");
            assert_eq!(second.lines, first.lines, "{other}");
        }
    }
}

/// A model without a mistake. Its lines are numbered by their ends.
const MODEL: &str = "\
context c0
constants
  limit ∈ ℤ                       // 3
axioms
  @axm1 0 ≤ limit
end                               // 6

machine m0 sees c0
variables
  done, all ∈ ℤ                   // 10
invariants
  @inv1 0 ≤ done
  @inv2 done ≤ limit              // 13
events
  event INITIALISATION
    then
      @act1 done ≔ 0
      @act2 all ≔ limit           // 18
  end
  event count
    any
      x, y ∈ ℤ                    // 22
    where
      @grd1 0 < x + y
    then
      @act1 done ≔ done + x       // 26
  end
end

machine m1 refines m0 sees c0     // 30
variables
  done ∈ ℤ
  left ∈ ℤ
invariants                        // 34
  @inv1 left = limit − done
variant left
events
  event INITIALISATION            // 38
    with
      @all' all' = limit
    then
      @act1 done ≔ 0              // 42
      @act2 left ≔ limit
  end
  event turn refines count
    any                           // 46
      x ∈ ℤ
    where
      @grd1 0 < x
      @grd2 x ≤ left              // 50
    with
      @all' all' = limit
      @y y = 0
    then                          // 54
      @act1 done ≔ done + x
      @act2 left ≔ left − x
  end
  convergent event rest           // 58
    where
      @grd1 0 < left
    then
      @act1 left ≔ left − 1       // 62
  end
end

numbering                         // 66
  witnesses 1 2 3 4
end
";

#[test]
fn the_model_has_no_mistake() {
    let source = read(MODEL).expect("a text");
    assert!(library::check(&source.bytes).is_ok());
    for (place, line) in MODEL.lines().enumerate() {
        let number = line.split_once("// ").map(|(_, number)| number.to_string());
        assert!(number.is_none_or(|number| number == (place + 1).to_string()));
    }
}

/// What is said to the model with an edit. Cases are three lines: what is replaced, by what, and what is said of it.
/// The sign ⏎ stands for a line end.
fn assert_said(cases: &str) {
    let lines: Vec<String> = cases
        .trim()
        .lines()
        .map(|line| line.trim().replace('⏎', "\n"))
        .collect();
    for case in lines.chunks(3) {
        let [that, this, expected] = case else {
            panic!("three lines: {case:?}");
        };
        let said = read(&edited(MODEL, that, this)).err();
        assert_eq!(said, Some(format!("m.eb:{expected}")), "{this}");
    }
}

const IN_TOKENS: &str = "
    limit ∈ ℤ
    limit ∈ ℤ # the most
        3:13: '#' is no sign of the notation
    0 ≤ limit
    ∀n·n ≤ limit
        5:9: '∀' is no sign of the notation
    0 ≤ limit
    0 ≤ \u{200b}limit
        5:13: '\\u{200b}' is no sign of the notation
    @axm1
    @ axm1
        5:3: expected a label after @, such as @inv1
    axioms
    /* axioms
        4:1: this comment has no end: expected */
    axioms
    /*/ axioms
        4:1: this comment has no end: expected */
    0 ≤ limit
    9223372036854775808 ≤ limit
        5:9: a number lies between −2147483648 and 2147483647
    0 ≤ limit
    −9223372036854775809 ≤ limit
        5:9: a number lies between −2147483648 and 2147483647
";

#[test]
fn mistakes_in_tokens() {
    assert_said(IN_TOKENS);
    let mut bytes = MODEL.as_bytes().to_vec();
    bytes[12] = 0xFF;
    let said = Source::of("m.eb", &bytes).err();
    assert_eq!(said.as_deref(), Some("m.eb:2:2: the text isn't UTF-8 here"));
}

const IN_DECLARATIONS: &str = "
    limit ∈ ℤ
    limit
        4:1: expected `∈` (or `:`) and the type, ℤ (INT) or BOOL, found the keyword `axioms`
    limit ∈ ℤ
    limit ∈ ℕ
        3:11: expected a type, ℤ (INT) or BOOL, found `ℕ`
    limit ∈ ℤ
    limit, : INT
        3:10: expected a constant's name, found `:`
    limit ∈ ℤ
    limit ∈ ℤ any ∈ ℤ
        3:13: expected the context's next part (`constants`, `axioms`, in this order) or its `end`, found the keyword `any`
    limit ∈ ℤ
    true ∈ BOOL
        3:3: expected a constant's name, found `true`
    limit ∈ ℤ
    limit, limit ∈ ℤ
        3:10: `limit` is declared already
    x, y ∈ ℤ
    x, limit ∈ ℤ
        22:10: `limit` is declared already
    x, y ∈ ℤ
    x, x ∈ ℤ
        22:10: `x` is declared already
    left ∈ ℤ
    left, left ∈ ℤ
        33:9: `left` is declared already
    left ∈ ℤ
    left, done ∈ ℤ
        33:9: `done` is declared already
    left ∈ ℤ
    left, limit ∈ ℤ
        33:9: `limit` is declared already
    left ∈ ℤ
    left, y ∈ ℤ
        33:9: `y` is declared already, as a parameter in the abstract machine
    left ∈ ℤ
    left ∈ ℤ all ∈ BOOL
        33:12: `all` has another type in the abstract machine; a shared variable has one
";

#[test]
fn mistakes_in_declarations() {
    assert_said(IN_DECLARATIONS);
}

const IN_NAMES: &str = "
    @axm1 0
    0
        5:3: expected a label, such as @inv1, before the formula, found `0`
    @inv2 done
    done
        13:3: expected an operator, a label or a keyword, found `done`
    @axm1 0 ≤ limit
    // no axiom
        6:1: expected a label, such as @inv1, before the formula, found the keyword `end`
    @inv2
    @inv1
        13:3: `inv1` stands twice in this list
    @act2 left ≔ left − x
    @act1 left ≔ left − x
        56:7: `act1` stands twice in this list
    event rest
    event turn
        58:20: `turn` stands twice in this list
    limit − done
    limt − done
        35:16: `limt` isn't declared
    @act2 left ≔ limit
    @act2 rest ≔ limit
        43:13: `rest` isn't declared
    refines count
    refines counts
        45:22: the abstract machine has no event `counts`
    refines m0
    refines m2
        30:20: `m2` isn't the machine before this one: its name is `m0`
    machine m0
    machine m0 refines m
        8:20: `m` isn't the machine before this one: there is none
    refines m0
    sees c0
        31:1: expected `refines m0` (the second machine refines the first), found the keyword `variables`
    machine m0 sees c0
    machine m0 sees c1
        8:17: `c1` isn't the context: its name is `c0`
    machine m1
    machine m0
        30:9: `m0` is the name of the first machine
    machine m1
    machine
        30:9: expected the machine's name, found the keyword `refines`
    event INITIALISATION            // 38
    convergent event INITIALISATION
        38:20: INITIALISATION is neither convergent nor anticipated
";

#[test]
fn mistakes_in_labels_and_names() {
    assert_said(IN_NAMES);
    let said = read("machine m sees c end").err();
    let expected = "m.eb:1:16: `c` isn't the context: there is none";
    assert_eq!(said.as_deref(), Some(expected));
}

const IN_WITNESSES: &str = "
    @y y = 0
    @z y = 0
        53:7: `z` isn't declared; a witness has the label of its parameter, or of its variable with a prime
    @y y = 0
    @z' y = 0
        53:7: `z` isn't declared; a witness has the label of its parameter, or of its variable with a prime
    @y y = 0
    @y y = 0 @x x = 1
        53:16: `x` is a parameter of this event too: it is kept, and needs no witness
    @y y = 0
    @y' y = 0
        53:7: `y` is a parameter: the label of its witness has no prime
    @y y = 0
    @all all' = 0
        53:7: `all` is a variable: the label of its witness has a prime
";

#[test]
fn mistakes_in_witnesses() {
    assert_said(IN_WITNESSES);
}

const IN_FORMULAS: &str = "
    0 ≤ limit
    0 ≤ limit ∧ ⊤ ∨ ⊥
        5:23: ∧ and ∨ don't stand side by side: put one of them in parentheses
    0 ≤ limit
    ⊤ ⇒ ⊥ ⇒ ⊤
        5:15: ⇒ and ⇔ don't follow one another: put one of them in parentheses
    0 ≤ limit
    ⊤ ⇔ ⊥ ⇒ ⊤
        5:15: ⇒ and ⇔ don't follow one another: put one of them in parentheses
    0 ≤ limit
    0 ≤ limit < 9
        5:19: comparisons don't follow one another: write a < b ∧ b < c for a < b < c
    0 ≤ limit
    limit ∈ ℕ
        5:15: `∈` (or `:`) stands only where names are declared, as sets are left out: write 0 ≤ x for x ∈ ℕ
    0 ≤ limit
    0 ≤ limit limit
        5:19: expected an operator, a label or a keyword, found `limit`
    0 ≤ limit
    0 ≤ limit)
        5:18: expected an operator, a label or a keyword, found `)`
    0 ≤ limit
    (0 ≤ limit
        6:1: expected `)` or an operator, found the keyword `end`
    0 ≤ limit
    0 ≤
        6:1: expected an operand: a name, a number, TRUE, FALSE, ⊤, ⊥, bool(..) or (..), found the keyword `end`
    0 ≤ limit
    0 <= := 1
        5:14: expected an operand: a name, a number, TRUE, FALSE, ⊤, ⊥, bool(..) or (..), found `:=`
    0 ≤ limit
    0 ≤ 2 ∗ −3
        5:17: expected an operand (a negation goes in parentheses here), found `−`
    0 ≤ limit
    bool = TRUE
        5:14: expected `(` after `bool`, found `=`
    @act2 left ≔ limit
    @act2 left = limit
        43:18: expected `≔` (or `:=`) and an expression, or `:∣` (or `:|`) and a predicate, found `=`
    @act2 left ≔ limit
    @act2 0 < left
        43:13: expected the name of the variable that the action sets, found `0`
";

#[test]
fn mistakes_in_formulas() {
    assert_said(IN_FORMULAS);
}

const IN_ORDER: &str = "
    @axm1 0 ≤ limit
    @axm1 0 ≤ limit⏎constants c ∈ ℤ
        6:1: expected the context's next part (`constants`, `axioms`, in this order) or its `end`, found the keyword `constants`
    end                               // 6⏎
    ⏎
        8:1: expected the context's next part (`constants`, `axioms`, in this order) or its `end`, found the keyword `machine`
    variant left
    variant left⏎variables u ∈ ℤ
        37:1: expected the machine's next part (`variables`, `invariants`, `variant`, `events`, in this order) or its `end`, found the keyword `variables`
    @grd1 0 < x + y
    @grd1 0 < x + y⏎    any z ∈ ℤ
        25:5: expected the event's next part (`any`, `where`, `with`, `then`, in this order) or its `end`, found the keyword `any`
    @y y = 0
    @y y = 0⏎    where @grd3 ⊤
        54:5: expected the event's next part (`any`, `where`, `with`, `then`, in this order) or its `end`, found the keyword `where`
    end⏎  convergent event
    convergent event
        57:3: expected the event's next part (`any`, `where`, `with`, `then`, in this order) or its `end`, found the keyword `convergent`
    end⏎⏎machine m1
    machine m1
        28:1: expected `event` or the machine's `end`, found the keyword `machine`
    end⏎⏎machine m1
    end⏎end⏎machine m1
        29:1: expected `machine`, for the refinement, or the end of the text, found the keyword `end`
    numbering
    context c1 end
        66:1: expected the end of the text, after two machines, found the keyword `context`
    convergent event
    convergent
        58:14: expected `event` after its status, found `rest`
";

#[test]
fn mistakes_in_the_order_of_parts() {
    assert_said(IN_ORDER);
    let said = read("context c end").err();
    let expected = "m.eb:1:14: expected `machine`, after the context, found the end of the text";
    assert_eq!(said.as_deref(), Some(expected));
}

const LEFT_OUT: &str = "
    @inv1 0 ≤ done
    theorem @inv1 0 ≤ done
        12:3: theorems are left out: state it as an axiom, an invariant or a guard
    @inv2 done
    theorem @inv2 done
        13:3: theorems are left out: state it as an axiom, an invariant or a guard
    @inv2 done
    THEOREMS @inv2 done
        13:3: theorems are left out: state it as an axiom, an invariant or a guard
    @grd2 x
    theorem @grd2 x
        50:7: theorems are left out: state it as an axiom, an invariant or a guard
    turn refines
    turn extends
        45:14: `extends` isn't known here: write `refines`, and the guards and actions out
    @inv2 done ≤ limit
    variant done
        13:3: a variant belongs to the refinement, the second machine
    numbering
    machine m2 refines m1 end numbering
        66:9: a text has one machine and one refinement of it; this is a third machine
";

#[test]
fn what_is_left_out_is_named() {
    assert_said(LEFT_OUT);
}

#[test]
fn mistakes_in_the_numbering() {
    let numbers = "67:3: `witnesses`: expected each number from 1 to 4 once; without this line they are numbered in the order of the text";
    for list in [
        "1 2 3",
        "1 2 3 3",
        "0 1 2 3",
        "1 2 3 4 5",
        "",
        "1 2 3 99999999999999999999999",
    ] {
        let case = format!("witnesses 1 2 3 4\nwitnesses {list}\n{numbers}");
        assert_said(&case);
    }
    assert_said(
        "
        witnesses 1 2 3 4
        witnesses 1 2 3 4 witnesses 4 3 2 1
            67:21: `witnesses` stands twice
        witnesses 1 2 3 4
        events 1 2 3 4
            67:3: expected `identifiers`, `nodes`, `guards`, `actions`, `witnesses` or `end`, found the keyword `events`
        witnesses 1 2 3 4
        witnesses 1, 2, 3, 4
            67:14: expected `identifiers`, `nodes`, `guards`, `actions`, `witnesses` or `end`, found `,`
        ",
    );
    for (list, count) in [
        ("identifiers", 7),
        ("nodes", 57),
        ("guards", 4),
        ("actions", 8),
    ] {
        let numbers = format!("expected each number from 1 to {count} once");
        let said = read(&edited(MODEL, "witnesses 1 2 3 4", list)).err();
        let expected = format!("m.eb:67:3: `{list}`: {numbers}; without this line they are numbered in the order of the text");
        assert_eq!(said, Some(expected));
    }
}

/// Members of a part go to the numbers that its list has at their places.
#[test]
fn a_list_gives_numbers() {
    let model = "context c constants a, b, c ∈ ℤ axioms @x a < b @y ⊤ end machine m end";
    let read = |list: &str| read(&format!("{model} numbering {list} end")).expect("a text");
    let identifiers = "10 1 1 0\n10 1 1 0\n10 1 1 0";
    let cases = [
        (
            "",
            "20 2 1 0\n20 2 2 0\n20 21 1 2\n20 30 0 0\n30 3 0 0\n30 4 0 0",
        ),
        (
            "identifiers 2 3 1",
            "20 2 2 0\n20 2 3 0\n20 21 1 2\n20 30 0 0\n30 3 0 0\n30 4 0 0",
        ),
        (
            "nodes 3 2 4 1",
            "20 30 0 0\n20 2 2 0\n20 2 1 0\n20 21 3 2\n30 4 0 0\n30 1 0 0",
        ),
    ];
    for (list, rows) in cases {
        let (expected, _) = lay_out(format!("{identifiers}\n{rows}").as_bytes());
        assert_eq!(read(list).bytes, expected, "{list}");
    }
    assert_eq!(read("identifiers 2 3 1").names.identifiers, ["c", "a", "b"]);
}

/// A file's form goes by its name, then by what it begins with.
#[test]
fn forms_of_files() {
    let cases = [
        ("m.eb", "machine m end", Form::Notation),
        ("m.eb", "", Form::Notation),
        ("m.eb", "∈ machine", Form::Notation),
        ("m.eb", "# machine", Form::Notation),
        ("-", "machine m end", Form::Notation),
        ("-", "\n  // comment", Form::Notation),
        ("-", "\u{feff}MACHINE m END", Form::Notation),
        ("-", "# rows", Form::Rows),
        ("-", "\u{feff}# rows", Form::Rows),
        ("m.txt", "10 1 1 0", Form::Rows),
        ("m.txt", "", Form::Rows),
        ("-", "  10          1          1          0\n", Form::Table),
        ("m.table", "", Form::Table),
    ];
    for (file, text, form) in cases {
        assert_eq!(Form::of(file, text.as_bytes()), form, "{file}: {text}");
    }
}
