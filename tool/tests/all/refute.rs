//! The search for counterexamples: what it finds, what it doesn't, and what it leaves open.

use crate::common::{file, read, run, spelled};
use sifthorma::evaluate::{Value, Values};
use sifthorma::formula::Mention;
use sifthorma::refute::{search, Found};

/// A machine with one action on v, and a refinement that shares it.
fn with_action(action: &str) -> String {
    format!(
        "context c0 constants c, d ∈ ℤ end
machine m sees c0 variables v ∈ ℤ events
  event INITIALISATION then @act1 v {action} end
end
machine n refines m variables v ∈ ℤ events
  event INITIALISATION then @act1 v ≔ 0 end
end
"
    )
}

/// What is found against FIS of the action, with integers from −3 to 3.
fn found(action: &str) -> Found {
    let source = read(&with_action(action)).expect("no mistake");
    let spelled = spelled(&source);
    let feasible = spelled.iter().find(|one| one.sequent.kind_word() == "FIS");
    search(feasible.expect("FIS"), &source.table, -3..=3)
}

#[test]
fn a_value_far_away_is_found() {
    for action in [
        ":∣ v' = 1000000",
        ":∣ c + v' = 1000000 ∗ d",
        ":∣ 7 ∗ v' + 3 = 7000003",
        ":∣ ¬(v' < 1000 + c) ∧ v' − 1 < 1000 + c",
        ":∣ 1000 < −v' ∨ v' + v' = 1",
        ":∣ v' = 500 ⇔ d = d",
        ":∣ v' − v' + 2 ∗ (v' − 1) < −9000 ∧ c = c",
        ":∣ d = 5 ⇒ c = d",
    ] {
        assert_eq!(found(action), Found::Nothing, "{action}");
    }
}

#[test]
fn that_no_value_is_there_is_found() {
    for action in [
        ":∣ v' < c ∧ c < v' + 1",
        ":∣ 2 ∗ v' = 2 ∗ c + 1",
        ":∣ 0 ∗ v' = 1",
        ":∣ v' = 500 ∧ v' = 501",
        ":∣ 3 ∗ v' = c",
        ":∣ c ∗ v' = d",
        ":∣ ⊥",
    ] {
        let found = found(action);
        assert!(matches!(found, Found::Counterexample(_)), "{action}");
    }
}

/// Where the action isn't linear in v' a value that isn't found may be there all the same.
#[test]
fn what_is_not_linear_is_left_open() {
    assert_eq!(found(":∣ v' ∗ v' = 10000"), Found::NotSearched);
    assert_eq!(found(":∣ v' ÷ 3 = 1000"), Found::NotSearched);
    assert_eq!(found(":∣ v' mod 7 = 6"), Found::Nothing);
}

#[test]
fn values_are_given_by_equations() {
    let text = with_action("≔ 0").replace(
        "constants c, d ∈ ℤ",
        "constants c, d ∈ ℤ axioms @axm1 c = 3 @axm2 d = 1000 ∗ c @axm3 1 ÷ (d − 3000) = 1",
    );
    let source = read(&text).expect("no mistake");
    let spelled = spelled(&source);
    let value = |identifier, value| {
        let after = false;
        (Mention { identifier, after }, Value::Integer(value))
    };
    let counterexample = Values::from([value(1, 3), value(2, 3000)]);
    let found = search(&spelled[0], &source.table, 0..=3);
    assert_eq!(found, Found::Counterexample(counterexample));
}

/// However wide the range is, the search ends.
#[test]
fn a_wide_range_is_left_open() {
    let path = file("wide.eb", &with_action(":∣ v' = c ∨ v' = 0"));
    let path = path.to_str().expect("UTF-8");
    let ran = run(&["refute", path, "-9000000000000000", "9000000000000000"]);
    assert_eq!(
        ran.output,
        "0 of 2 sequents refuted, 2 not searched to the end\n"
    );
    assert_eq!(ran.status, Some(0));
    let ran = run(&["refute", path, "4", "-2"]);
    assert_eq!(ran.message, "no number lies between 4 and -2\n");
    assert_eq!(ran.status, Some(2));
}
