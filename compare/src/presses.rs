//! Compares an implementation of press and preview with this one over many tables, lists and steps: replies, and every record.

use crate::against::Reply;
use crate::batches::{Batched, Replies};
use crate::campaign::{shown_table, Report};
use crate::checks::{accept, Refusal};
use crate::numbers::{Place, Sum};
use crate::press::{Cause, Panel, Record};
use crate::replays::{is_of_log, reply, shown_log};
use crate::shrink::records::shrink_case;
use crate::stack::on_thread;
use crate::states::batch::{batch, Batch, Case, CASES};
use std::time::Duration;

/// Press and preview, as the C header has them. The first list of a preview is lent as one that can change, so that a change
/// of it can be seen.
pub trait Presses: Sync {
    /// Bytes of stack for a thread that calls.
    fn stack(&self) -> usize;
    fn press(&self, table: &[u8], step: &[u8], state: &mut [Record]) -> Reply;
    fn preview(
        &self,
        table: &[u8],
        step: &[u8],
        first: &mut [Record],
        second: &mut [Record],
    ) -> Reply;
}

/// Time for making a table and a press with a difference smaller.
const SHRINKING: Duration = Duration::from_secs(60);

/// Records on either side of a list that no call may change.
pub const MARGIN: usize = 3;

/// The list with a margin on either side, whose records are all different and look like any others.
pub fn lent(list: &[Record]) -> Vec<Record> {
    let margin = |side: u64| {
        (0..MARGIN as u64).map(move |place| Record {
            value: (0x5A17_0000 + 16 * side + place) as i64,
            type_number: 1 + (place & 1),
        })
    };
    margin(1)
        .chain(list.iter().copied())
        .chain(margin(2))
        .collect()
}

/// The list within its margins.
pub fn within(lent: &mut [Record]) -> &mut [Record] {
    let end = lent.len() - MARGIN;
    &mut lent[MARGIN..end]
}

#[derive(Clone, Copy, Debug, PartialEq, Eq)]
pub enum Call {
    Press,
    Preview,
}

/// A reply, and the lists with their margins; a press has no second one.
#[derive(Clone, Debug, PartialEq, Eq)]
pub struct Outcome {
    pub reply: Reply,
    pub first: Vec<Record>,
    pub second: Vec<Record>,
}

/// A call that was answered in two ways.
#[derive(Clone, Debug)]
pub struct Difference {
    pub call: Call,
    pub expected: Outcome,
    pub got: Outcome,
}

/// What a case must give: the records before it, and the outcome of either call.
struct Expected {
    state: Vec<Record>,
    preview: Outcome,
    press: Outcome,
}

/// Counts over what was compared.
#[derive(Clone, Debug, Default)]
pub struct Summary {
    pub tables: u64,
    pub presses: u64,
    /// Presses by the number of the reply, 0 for those that are performed.
    pub replies: Replies,
    /// Steps that can be pressed but not previewed, for the second list.
    pub only_pressed: u64,
}

/// A table and a press with a difference, and later the smallest ones made from them.
#[derive(Clone, Debug)]
pub struct Found {
    pub at: Place,
    /// Which case of the batch, from 0.
    pub place: usize,
    pub table: Vec<u8>,
    /// Its records before it are always there.
    pub case: Case,
    pub difference: Difference,
}

impl Batched for dyn Presses + '_ {
    type Batch = Batch;
    type Summary = Summary;
    type Found = Found;
    const SIZE: usize = CASES;

    fn batch(number: u64, most: usize) -> Batch {
        let mut batch = batch(number);
        batch.cases.truncate(most);
        batch
    }

    fn take(&self, at: Place, batch: Batch, summary: &mut Summary) -> Option<Found> {
        let expected = expected(&batch);
        summary.count(&expected);
        let (place, difference) = first_difference(self, &batch, &expected)?;
        let case = Case {
            state: Some(expected[place].state.clone()),
            ..batch.cases[place].clone()
        };
        Some(Found {
            at,
            place,
            table: batch.table,
            case,
            difference,
        })
    }

    /// An accepted table stays accepted. What only shows after other presses on the same list stays as it is.
    fn smaller(&self, found: Found) -> Found {
        let is_of_press = |difference: &Difference| is_of_log(difference.expected.reply);
        let difference = |table: &[u8], case: &Case| {
            let batch = Batch {
                table: table.to_vec(),
                cases: vec![case.clone()],
            };
            let found = first_difference(self, &batch, &expected(&batch));
            found.map(|one| one.1)
        };
        let stays = |table: &[u8], case: &Case| {
            let seen = difference(table, case);
            seen.is_some_and(|one| is_of_press(&one) == is_of_press(&found.difference))
        };
        if !stays(&found.table, &found.case) {
            return found;
        }
        let (table, case) = shrink_case(&found.table, &found.case, SHRINKING, stays);
        let difference = difference(&table, &case).unwrap_or(found.difference);
        Found {
            table,
            case,
            difference,
            ..found
        }
    }
}

/// A batch with what it must give, to be compared with several implementations.
pub struct Prepared {
    batch: Batch,
    expected: Vec<Expected>,
}

impl Prepared {
    pub fn new(batch: Batch) -> Prepared {
        Prepared {
            expected: expected(&batch),
            batch,
        }
    }
}

/// The first of these batches that shows a difference, if one does; it isn't made smaller.
pub fn first_batch(presses: &dyn Presses, batches: &[Prepared]) -> Option<usize> {
    let differs = |Prepared { batch, expected }: &Prepared| {
        first_difference(presses, batch, expected).is_some()
    };
    batches.iter().position(differs)
}

/// What each case of the batch must give. The table is checked once.
fn expected(batch: &Batch) -> Vec<Expected> {
    let panel = accept(&batch.table).map(|table| Panel::of(&table));
    let mut now = Vec::new();
    let mut all = Vec::new();
    for case in &batch.cases {
        if let Some(state) = &case.state {
            now = state.clone();
        }
        let state = now.clone();
        let preview = previewed(&panel, &state, case);
        let press = pressed(&panel, &mut now, case);
        all.push(Expected {
            state,
            preview,
            press,
        });
    }
    all
}

fn previewed(panel: &Result<Panel, Refusal>, state: &[Record], case: &Case) -> Outcome {
    let mut second = case.second.clone();
    let answer = asked(panel, |panel| panel.preview(&case.step, state, &mut second));
    Outcome {
        reply: answer,
        first: lent(state),
        second: lent(&second),
    }
}

/// Changes the records as the press does.
fn pressed(panel: &Result<Panel, Refusal>, state: &mut [Record], case: &Case) -> Outcome {
    let answer = asked(panel, |panel| panel.press(&case.step, state));
    Outcome {
        reply: answer,
        first: lent(state),
        second: vec![],
    }
}

/// The table's refusal, or what is asked of its panel.
fn asked(panel: &Result<Panel, Refusal>, ask: impl FnOnce(&Panel) -> Result<(), Cause>) -> Reply {
    let answer = match panel {
        Ok(panel) => ask(panel).map_err(Cause::refusal),
        Err(refusal) => Err(*refusal),
    };
    reply(answer.map(|()| 0))
}

/// The first case that is answered in another way, on a thread with the stack that is stated and no more. Presses one after
/// another are made on one list.
fn first_difference(
    presses: &dyn Presses,
    batch: &Batch,
    expected: &[Expected],
) -> Option<(usize, Difference)> {
    on_thread(presses.stack(), || {
        let mut list = Vec::new();
        for (place, (case, expected)) in batch.cases.iter().zip(expected).enumerate() {
            if let Some(state) = &case.state {
                list = lent(state);
            }
            let got = preview(presses, &batch.table, case, &mut list);
            let found = differs(Call::Preview, &expected.preview, got);
            let found = found.or_else(|| {
                let got = press(presses, &batch.table, case, &mut list);
                differs(Call::Press, &expected.press, got)
            });
            if let Some(found) = found {
                return Some((place, found));
            }
        }
        None
    })
}

/// Previews the step with the list, which is lent with its margins.
fn preview(presses: &dyn Presses, table: &[u8], case: &Case, list: &mut [Record]) -> Outcome {
    let mut second = lent(&case.second);
    let reply = presses.preview(table, &case.step, within(list), within(&mut second));
    Outcome {
        reply,
        first: list.to_vec(),
        second,
    }
}

fn press(presses: &dyn Presses, table: &[u8], case: &Case, list: &mut [Record]) -> Outcome {
    let reply = presses.press(table, &case.step, within(list));
    Outcome {
        reply,
        first: list.to_vec(),
        second: vec![],
    }
}

fn differs(call: Call, expected: &Outcome, got: Outcome) -> Option<Difference> {
    (*expected != got).then(|| Difference {
        call,
        expected: expected.clone(),
        got,
    })
}

impl Summary {
    fn count(&mut self, cases: &[Expected]) {
        self.tables += 1;
        self.presses += cases.len() as u64;
        for Expected { press, preview, .. } in cases {
            self.replies.count(press.reply.number);
            self.only_pressed += u64::from(press.reply != preview.reply);
        }
    }
}

impl Sum for Summary {
    fn add(&mut self, other: &Summary) {
        self.tables += other.tables;
        self.presses += other.presses;
        self.only_pressed += other.only_pressed;
        self.replies.add(&other.replies);
    }
}

impl Report for Summary {
    fn report(&self) -> String {
        let mut text = format!(
            "{} tables, {} presses, each with a preview\n",
            self.tables, self.presses
        );
        text += &self.replies.report("performed");
        let only_pressed = self.only_pressed;
        text + &format!("previews refused for the second list alone {only_pressed}\n")
    }
}

impl Report for Found {
    /// The difference with its table, step and lists.
    fn report(&self) -> String {
        let Difference {
            call,
            expected,
            got,
        } = &self.difference;
        let call = match call {
            Call::Press => "press",
            Call::Preview => "preview",
        };
        let mut text = format!(
            "DIFFERENCE at {}, case {}, {call}\nexpected {}\ngot      {}\n",
            self.at, self.place, expected.reply, got.reply
        );
        text += &first_record("first", &expected.first, &got.first);
        text += &first_record("second", &expected.second, &got.second);
        text += &format!("the smallest table found, {} bytes:\n", self.table.len());
        text += &shown_table(&self.table);
        text += &format!("its step, {} bytes:\n", self.case.step.len());
        text += &shown_log(&self.case.step);
        let state = self.case.state.as_deref().unwrap_or_default();
        text += &shown_list("records (value, type)", state);
        text + &shown_list("the second list before", &self.case.second)
    }
}

/// Records that are shown of a list.
const SHOWN: usize = 70;

fn shown_list(words: &str, list: &[Record]) -> String {
    let mut text = format!("{words}, {} of them:\n", list.len());
    for record in list.iter().take(SHOWN) {
        text += &shown_record(Some(record));
        text += "\n";
    }
    text
}

fn shown_record(record: Option<&Record>) -> String {
    record.map_or("none".to_string(), |one| {
        format!("{} {}", one.value, one.type_number)
    })
}

/// The first record after the call that differs, counted from 1 in its list.
fn first_record(word: &str, expected: &[Record], got: &[Record]) -> String {
    let longest = expected.len().max(got.len());
    let differs = |&place: &usize| expected.get(place) != got.get(place);
    let Some(place) = (0..longest).find(differs) else {
        return String::new();
    };
    format!(
        "the {word} list differs first at record {}\nexpected {}\ngot      {}\n",
        place as i64 + 1 - MARGIN as i64,
        shown_record(expected.get(place)),
        shown_record(got.get(place))
    )
}
