//! Runs provers on every sequent, several at a time: what is discharged, what is refuted, what stays open.

use crate::answers::{answer, Answer};
use crate::evaluate::Values;
use crate::formula::Mention;
use crate::names::Names;
use crate::origin::origin;
use crate::provers::Prover;
use crate::refute::refutes;
use crate::sequents::Spelled;
use crate::smt::{Smt, PREAMBLE};
use crate::table::Table;
use std::collections::BTreeMap;
use std::io::{stderr, IsTerminal, Write};
use std::sync::atomic::{AtomicUsize, Ordering};
use std::sync::Mutex;
use std::time::{Duration, Instant};

/// How provers are run.
pub struct Plan {
    pub provers: Vec<Prover>,
    /// For one prover and one sequent.
    pub limit: Duration,
    pub jobs: usize,
}

/// The most time for a list of hypotheses: it is asked for a warning alone.
const WARNING_LIMIT: Duration = Duration::from_secs(2);

/// What became of a sequent.
#[derive(Clone, Debug)]
pub enum Outcome {
    /// Where its hypotheses contradict each other, the part of them with which they do.
    Discharged(Option<String>),
    /// By this prover; the values, and whether they make the hypotheses true and the goal false.
    Refuted(String, Values, bool),
    /// What each prover said instead of an answer.
    Open(Vec<String>),
}

/// A script with one check-sat, and what it asks the values of.
struct Question {
    script: String,
    asked: Vec<Mention>,
}

impl Question {
    /// Whether the hypotheses can be met together with the denied goal.
    fn of_sequent(spelled: &Spelled, smt: &Smt) -> Question {
        let asked: Vec<Mention> = smt.mentions(spelled).into_iter().collect();
        let symbols: Vec<String> = asked.iter().map(|&mention| smt.symbol(mention)).collect();
        let mut script = format!("{PREAMBLE}{}", smt.question(spelled));
        if !symbols.is_empty() {
            script += &format!("(get-value ({}))\n", symbols.join(" "));
        }
        Question { script, asked }
    }

    /// Whether the first so many hypotheses can be met.
    fn of_hypotheses(spelled: &Spelled, count: usize, smt: &Smt) -> Question {
        let formulas = spelled.hypotheses.iter().take(count);
        let mentions = formulas.flat_map(|formula| formula.free()).collect();
        let declared = smt.declarations(&mentions);
        let hypotheses = smt.hypotheses(spelled, count);
        Question {
            script: format!("{PREAMBLE}{declared}{hypotheses}(check-sat)\n"),
            asked: vec![],
        }
    }
}

/// The outcomes of all sequents, in their order.
pub fn run(
    plan: &Plan,
    sequents: &[Spelled],
    table: &Table,
    names: &Names,
) -> Result<Vec<Outcome>, String> {
    let smt = Smt { table, names };
    let questions = sequents.iter().map(|one| Question::of_sequent(one, &smt));
    let answers = ask_all(plan, &questions.collect::<Vec<_>>(), "sequents")?;
    let answered = answers.into_iter().zip(sequents);
    let outcomes = answered.map(|(answers, spelled)| outcome(plan, answers, spelled, table));
    let mut outcomes: Vec<Outcome> = outcomes.collect();
    find_contradictions(plan, sequents, &mut outcomes, &smt)?;
    Ok(outcomes)
}

/// The outcome by the answers of the provers in turn, of which the last may be definite.
fn outcome(plan: &Plan, answers: Vec<Answer>, spelled: &Spelled, table: &Table) -> Outcome {
    let mut said = Vec::new();
    for (answer, prover) in answers.into_iter().zip(&plan.provers) {
        let name = &prover.name;
        match answer {
            Answer::Unsat => return Outcome::Discharged(None),
            Answer::Sat(values) => {
                let confirmed = refutes(spelled, table, &values);
                return Outcome::Refuted(name.clone(), values, confirmed);
            }
            Answer::Neither(line) if line.is_empty() => {
                said.push(format!(
                    "{name}: no answer within {} s",
                    plan.limit.as_secs()
                ));
            }
            Answer::Neither(line) => said.push(format!("{name}: {line}")),
        }
    }
    Outcome::Open(said)
}

/// Notes which discharged sequents have hypotheses that can't be met together. Each list of them is asked about once.
fn find_contradictions(
    plan: &Plan,
    sequents: &[Spelled],
    outcomes: &mut [Outcome],
    smt: &Smt,
) -> Result<(), String> {
    let mut places: BTreeMap<String, usize> = BTreeMap::new();
    let mut lists: Vec<&Spelled> = Vec::new();
    let mut questions = Vec::new();
    let mut asked = Vec::new();
    let assuming = |(spelled, _): &(&Spelled, &mut Outcome)| !spelled.hypotheses.is_empty();
    for (spelled, outcome) in sequents.iter().zip(outcomes.iter_mut()).filter(assuming) {
        if let Outcome::Discharged(contradiction) = outcome {
            let question = Question::of_hypotheses(spelled, spelled.hypotheses.len(), smt);
            let place = *places.entry(question.script.clone()).or_insert(lists.len());
            if place == lists.len() {
                lists.push(spelled);
                questions.push(question);
            }
            asked.push((place, contradiction));
        }
    }
    let plan = &Plan {
        provers: plan.provers.clone(),
        limit: plan.limit.min(WARNING_LIMIT),
        jobs: plan.jobs,
    };
    let answers = ask_all(plan, &questions, "lists of hypotheses")?;
    let mut parts = Vec::new();
    for (spelled, answers) in lists.into_iter().zip(answers) {
        parts.push(match answers.last() {
            Some(Answer::Unsat) => Some(contradictory_part(plan, spelled, smt)?),
            _ => None,
        });
    }
    for (place, contradiction) in asked {
        *contradiction = parts[place].clone();
    }
    Ok(())
}

/// The first part of contradictory hypotheses, in their order, with which those before it contradict each other.
fn contradictory_part(plan: &Plan, spelled: &Spelled, smt: &Smt) -> Result<String, String> {
    let entries = &spelled.sequent.hypotheses;
    let part = |place: usize| origin(entries[place], smt.table, smt.names).part;
    let last = entries.len() - 1;
    for place in 0..last {
        if part(place) != part(place + 1) {
            let question = Question::of_hypotheses(spelled, place + 1, smt);
            if ask(plan, &question)?.last() == Some(&Answer::Unsat) {
                return Ok(part(place));
            }
        }
    }
    Ok(part(last))
}

/// The answers to each question: of the provers in turn, up to the first that is definite.
fn ask_all(plan: &Plan, questions: &[Question], what: &str) -> Result<Vec<Vec<Answer>>, String> {
    let (next, done) = (AtomicUsize::new(0), AtomicUsize::new(0));
    let answers = Mutex::new(vec![None; questions.len()]);
    std::thread::scope(|scope| {
        for _ in 0..plan.jobs.min(questions.len()) {
            scope.spawn(|| loop {
                let place = next.fetch_add(1, Ordering::Relaxed);
                let Some(question) = questions.get(place) else {
                    return;
                };
                let answer = ask(plan, question);
                answers.lock().expect("no thread panics")[place] = Some(answer);
                done.fetch_add(1, Ordering::Relaxed);
            });
        }
        show_progress(&done, questions.len(), what);
    });
    let answers = answers.into_inner().expect("no thread panics");
    let unasked = || Err(format!("one of the {what} has no answer"));
    answers
        .into_iter()
        .map(|answer| answer.unwrap_or_else(unasked))
        .collect()
}

fn ask(plan: &Plan, question: &Question) -> Result<Vec<Answer>, String> {
    let mut answers = Vec::new();
    for prover in &plan.provers {
        let printed = prover.ask(&question.script, plan.limit);
        let printed = printed.map_err(|error| format!("cannot run {}: {error}", prover.name))?;
        let answer = answer(&printed, &question.asked);
        let definite = !matches!(answer, Answer::Neither(_));
        answers.push(answer);
        if definite {
            break;
        }
    }
    Ok(answers)
}

/// Says on standard error how far it is, until all is done: in place on a terminal, else a line every five seconds.
fn show_progress(done: &AtomicUsize, count: usize, what: &str) {
    let terminal = stderr().is_terminal();
    let pause = Duration::from_millis(if terminal { 200 } else { 5000 });
    let mut last = Instant::now();
    loop {
        let so_far = done.load(Ordering::Relaxed);
        if so_far == count {
            break;
        }
        if last.elapsed() >= pause {
            let (before, after) = if terminal { ("\r", "") } else { ("", "\n") };
            say(&format!("{before}{so_far} of {count} {what} asked{after}"));
            last = Instant::now();
        }
        std::thread::sleep(Duration::from_millis(5));
    }
    if terminal {
        say(&format!("\r{:40}\r", ""));
    }
}

/// Whether standard error takes it makes no difference to the answer.
fn say(text: &str) {
    let _ = write!(stderr(), "{text}");
}
