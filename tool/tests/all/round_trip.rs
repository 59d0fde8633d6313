//! Accepted tables as texts of the notation and back, byte for byte; refused ones with number, word and row.

use crate::common::{model, models, on_a_stack, read};
use compare::generate::plan::{extreme, EXTREMES};
use compare::generate::random::Random;
use compare::rows::bytes_of;
use sifthorma::library::check;
use sifthorma::notation::write::write;
use sifthorma::refusal::report;
use sifthorma::source::Source;
use std::collections::BTreeSet;

const SEEDS: u64 = 4000;

/// The lists of the part `numbering`.
const LISTS: [&str; 5] = ["identifiers", "nodes", "guards", "actions", "witnesses"];

/// The words of refusals 1 to 12, as the scope paper has them.
const WORDS: [&str; 12] = [
    "frame",
    "column",
    "tag",
    "full",
    "event",
    "identifier",
    "reference",
    "sort",
    "use",
    "sight",
    "twice",
    "missing",
];

/// Parts of reports that leave out what they are about.
const SAYS_NOTHING: [&str; 4] = [
    "it mentions ;",
    ": , where",
    "something isn't there",
    "it is refused",
];

/// The text of an accepted model. Read again it is the same table, and written again the same text.
fn round(source: &Source, what: &str) -> String {
    let text = write(&source.table, &source.names);
    let again = read(&text).unwrap_or_else(|mistake| panic!("{what}: {mistake}\n{text}"));
    assert!(again.bytes == source.bytes, "{what}: other bytes\n{text}");
    assert_eq!(write(&again.table, &again.names), text, "{what}");
    text
}

/// The text without its part `numbering`, and the lists of that part.
fn without_numbering(text: &str) -> (&str, Vec<&str>) {
    match text.split_once("\nnumbering\n") {
        None => (text, vec![]),
        Some((before, part)) => {
            let list = |line: &&str| line.starts_with("  ") && !line.starts_with("    ");
            let lists = part.lines().filter(list).map(str::trim);
            (before, lists.collect())
        }
    }
}

fn generated(seed: u64) -> Source {
    Source::of("g.table", &compare::generate::table(seed)).expect("a table has no mistakes")
}

#[test]
fn generated_tables_come_back() {
    let (mut accepted, mut numbered) = (0, 0);
    let mut seen = BTreeSet::new();
    on_a_stack(|| {
        for seed in 0..SEEDS {
            let source = generated(seed);
            if check(&source.bytes).is_ok() {
                let text = round(&source, &format!("seed {seed}"));
                let (_, lists) = without_numbering(&text);
                accepted += 1;
                numbered += usize::from(!lists.is_empty());
                seen.extend(lists.into_iter().map(str::to_string));
            }
        }
    });
    assert!(accepted > 2000, "{accepted} accepted");
    assert!(numbered > 1500, "{numbered} with numbering");
    assert!(
        accepted - numbered > 100,
        "{numbered} of {accepted} with numbering"
    );
    assert_eq!(seen, LISTS.map(str::to_string).into());
}

/// A text that numbers nothing gives a table that is numbered as the notation numbers.
#[test]
fn without_numbering_nothing_is_numbered() {
    let mut lost = 0;
    on_a_stack(|| {
        for seed in (0..SEEDS).step_by(3) {
            let source = generated(seed);
            if check(&source.bytes).is_ok() {
                let text = write(&source.table, &source.names);
                let (plain, lists) = without_numbering(&text);
                let again = read(plain).expect("a text");
                assert!(check(&again.bytes).is_ok(), "seed {seed}");
                let text = round(&again, &format!("seed {seed} without numbering"));
                assert_eq!(without_numbering(&text).1, [""; 0], "seed {seed}");
                assert_eq!(again.bytes == source.bytes, lists.is_empty(), "seed {seed}");
                lost += usize::from(!lists.is_empty());
            }
        }
    });
    assert!(lost > 500, "{lost}");
}

#[test]
fn tables_at_the_limits_come_back() {
    let mut longest = 0;
    on_a_stack(|| {
        for number in 0..EXTREMES {
            for seed in 0..6 {
                let mut random = Random::new(seed);
                let draft = extreme(number, &mut random);
                let bytes = bytes_of(&draft.rows(&mut random));
                let source = Source::of("g.table", &bytes).expect("a table");
                assert!(check(&bytes).is_ok());
                round(&source, &format!("extreme {number}, seed {seed}"));
                longest = longest.max(source.table.rows.len());
            }
        }
    });
    assert!(longest > 900, "{longest} rows");
}

/// A text of rows with these nodes, of which the last is the root of the only axiom.
fn one_axiom(nodes: &[String]) -> String {
    let root = nodes.len();
    format!(
        "#\n{}\n30 {root} 0 0\n40 1 0 0\n40 2 0 0\n",
        nodes.join("\n")
    )
}

/// 512 nodes in one formula: operators on one operand, and pairs deep on the left or on the right.
#[test]
fn the_deepest_formulas_come_back() {
    let one = |operator: usize, n: usize| format!("20 {operator} {n} 0");
    let mut nots: Vec<String> = (1..512).map(|n| one(32, n)).collect();
    nots.insert(0, "20 30 0 0".to_string());
    let mut negations: Vec<String> = (1..510).map(|n| one(15, n)).collect();
    negations.insert(0, "20 1 -7 0".to_string());
    negations.extend(["20 1 0 0", "20 20 510 511"].map(str::to_string));
    let mut formulas = vec![nots, negations];
    for operator in [33, 34, 35, 36] {
        let leaves = vec!["20 31 0 0".to_string(); 256];
        let left = (0..255).map(|n| {
            format!(
                "20 {operator} {} {}",
                [256 + n, 1][usize::from(n == 0)],
                n + 2
            )
        });
        let right = (0..255).map(|n| format!("20 {operator} {} {}", 255 - n, 256 + n));
        formulas.push([leaves.clone(), left.collect()].concat());
        formulas.push([leaves, right.collect()].concat());
    }
    on_a_stack(|| {
        for nodes in &formulas {
            let source = Source::of("rows.txt", one_axiom(nodes).as_bytes()).expect("rows");
            assert_eq!(source.table.rows.len(), nodes.len() + 3);
            check(&source.bytes).expect("accepted");
            round(&source, &nodes[nodes.len() - 1]);
        }
    });
}

/// Models as rows and as texts, but the one that is refused. Those in both forms have one table.
#[test]
fn models_come_back() {
    on_a_stack(|| {
        let files = [models(".txt"), models(".eb")].concat();
        assert!(files.len() >= 9, "{files:?}");
        for file in files {
            let source = Source::of(&file, &model(&file)).expect("a model");
            match check(&source.bytes) {
                Ok(_) => {
                    let text = round(&source, &file);
                    assert_eq!(without_numbering(&text).1, [""; 0], "{file}");
                }
                Err(_) => assert!(file.starts_with("refused."), "{file}"),
            }
        }
        for name in ["counter", "placing_head", "free_list"] {
            let tables = [".txt", ".eb"].map(|end| {
                let file = name.to_string() + end;
                Source::of(&file, &model(&file)).expect("a model").bytes
            });
            assert!(tables[0] == tables[1], "{name}");
        }
    });
}

/// Event step keeps z, y and x of event move, and has its own w.
const KEPT: &str = "\
machine m0
variables
  v ∈ ℤ
events

  event INITIALISATION
    then
      @act1 v ≔ 0
  end

  event move
    any
      w, x, y ∈ ℤ
      z ∈ BOOL
    where
      @grd1 w < x
    then
      @act1 v ≔ v + x + y
  end
end

machine m1 refines m0
variables
  u ∈ ℤ
events

  event INITIALISATION
    with
      @v' v' = u'
    then
      @act1 u ≔ 0
  end

  event step refines move
    any
      z ∈ BOOL
      y, x ∈ ℤ
    where
      @grd1 z = TRUE
    with
      @w w = x − 1
      @v' v' = u'
    then
      @act1 u ≔ u + x + y
  end
end
";

/// Numbers 1 to n, each way.
fn orders(n: usize) -> Vec<Vec<usize>> {
    match n {
        0 => vec![vec![]],
        _ => {
            let shorter = orders(n - 1).into_iter();
            let longer = shorter.flat_map(|order| {
                (0..n).map(move |place| {
                    let mut longer = order.clone();
                    longer.insert(place, n);
                    longer
                })
            });
            longer.collect()
        }
    }
}

/// The kept model with a list of numbers, if it is accepted so; then it has to come back.
fn kept_comes_back(list: &str, numbers: &[usize]) -> bool {
    let numbers: Vec<String> = numbers.iter().map(usize::to_string).collect();
    let text = format!("{KEPT}\nnumbering {list} {} end\n", numbers.join(" "));
    let source = read(&text).expect("a text");
    let accepted = check(&source.bytes).is_ok();
    if accepted {
        round(&source, &format!("{list} {numbers:?}"));
    }
    accepted
}

#[test]
fn kept_parameters_come_back() {
    let source = read(KEPT).expect("a text");
    assert_eq!(check(&source.bytes), Ok(9));
    assert_eq!(round(&source, "kept"), KEPT);
    // the witnesses of w and v, then of what is kept in the order of the abstract event
    let witnesses = source.table.of_event(60, 4).map(|(_, row)| row.b);
    assert_eq!(witnesses.collect::<Vec<_>>(), [2, 1, 3, 4, 5]);
    on_a_stack(|| {
        let all = orders(6);
        let accepted = all
            .iter()
            .filter(|order| kept_comes_back("witnesses", order));
        assert_eq!(accepted.count(), 720);
        let all = orders(9).into_iter().step_by(97);
        let accepted = all.filter(|order| kept_comes_back("identifiers", order));
        assert!(accepted.count() > 3000);
        let nodes = source.table.places(20).count();
        // one node and the one after it exchange their numbers
        let accepted = (1..nodes).filter(|&place| {
            let mut order: Vec<usize> = (1..=nodes).collect();
            order.swap(place - 1, place);
            kept_comes_back("nodes", &order)
        });
        assert!(accepted.count() > 20);
    });
}

/// What is said of a refused table names the refusal's number, its word and the row.
#[test]
fn refused_tables_are_told() {
    let mut met = BTreeSet::new();
    on_a_stack(|| {
        for seed in 0..SEEDS {
            let source = generated(seed);
            if let Err(refusal) = check(&source.bytes) {
                let word = WORDS[refusal.number as usize - 1];
                let head = format!("refusal {} ({word}), row {}: ", refusal.number, refusal.row);
                let said = report(&source, refusal);
                let place = match refusal.row {
                    0 => "g.table:".to_string(),
                    row => format!("g.table:{row}: "),
                };
                assert!(said.starts_with(&place), "seed {seed}: {said}");
                assert!(said.contains(&head), "seed {seed}: {said}");
                for empty in SAYS_NOTHING {
                    assert!(!said.contains(empty), "seed {seed}: {said}");
                }
                met.insert(refusal.number);
            }
        }
    });
    assert_eq!(met, (1..=12).collect());
}

/// Each node is the sum of the one before it with itself: as a formula it would have 2^100 of them.
#[test]
fn nodes_used_twice_are_told() {
    let mut nodes: Vec<String> = (1..100).map(|n| format!("20 10 {n} {n}")).collect();
    nodes.insert(0, "20 1 1 0".to_string());
    let source = Source::of("rows.txt", one_axiom(&nodes).as_bytes()).expect("rows");
    let refusal = check(&source.bytes).expect_err("an axiom is a predicate");
    assert_eq!((refusal.number, refusal.row), (8, 101));
    assert!(source.table.formula(100).is_none());
    assert_eq!(
        source.table.formula(2).map(|sum| sum.operands.len()),
        Some(2)
    );
    let said = report(&source, refusal);
    assert!(
        said.starts_with("rows.txt:102: refusal 8 (sort), row 101: axiom @axm1: "),
        "{said}"
    );
}
