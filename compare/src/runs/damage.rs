//! Damaged logs: a real run with one fault, each fault in each place.

use super::recorded::{set_row, Recorded};
use crate::generate::random::Random;
use crate::replay::machine::{Change, Machine, Step};
use crate::rows::{bytes_of, read_row, Row, ROW_BYTES};
use crate::table::*;

#[derive(Clone, Copy, Debug, PartialEq, Eq, PartialOrd, Ord)]
pub enum Damage {
    /// A value is one more or less.
    ByOne,
    /// A value is at an end of 32 bits.
    ToAnEnd,
    /// A boolean is 2, −1 or farther off.
    NoBoolean,
    /// A row is left out.
    Dropped,
    Doubled,
    /// Two rows that follow each other, or any two.
    Exchanged,
    OtherTag,
    UnusedColumn,
    OutOfForm,
    /// Any byte is another one.
    Byte,
    /// A row 90 names an abstract event, the initialisation, no event, or any other one.
    OtherEvent,
    /// A row 91 names another identifier.
    OtherIdentifier,
    /// The log ends inside a row.
    Torn,
    /// It ends between two rows.
    Cut,
    /// It ends between two rows of one step.
    CutInside,
    Emptied,
    /// A step has the values of another one.
    OtherValues,
    StepDropped,
    StepDoubled,
    StepsExchanged,
    /// A variable that isn't assigned changes.
    KeptChanged,
    /// Something follows the last step.
    More,
}

pub const DAMAGES: [Damage; 22] = [
    Damage::ByOne,
    Damage::ToAnEnd,
    Damage::NoBoolean,
    Damage::Dropped,
    Damage::Doubled,
    Damage::Exchanged,
    Damage::OtherTag,
    Damage::UnusedColumn,
    Damage::OutOfForm,
    Damage::Byte,
    Damage::OtherEvent,
    Damage::OtherIdentifier,
    Damage::Torn,
    Damage::Cut,
    Damage::CutInside,
    Damage::Emptied,
    Damage::OtherValues,
    Damage::StepDropped,
    Damage::StepDoubled,
    Damage::StepsExchanged,
    Damage::KeptChanged,
    Damage::More,
];

/// A damaged log, and the place, from 0, of the row or the first row that was damaged.
#[derive(Clone, Debug, PartialEq, Eq)]
pub struct Damaged {
    pub log: Vec<u8>,
    pub place: usize,
}

/// A run of a table, or a step to press, whose rows may hold any numbers.
pub struct Subject<'a> {
    pub table: &'a Table,
    pub machine: &'a Machine,
    pub run: &'a Recorded,
}

impl Subject<'_> {
    /// The run with this damage somewhere, if there is a place for it.
    pub fn damaged(&self, damage: Damage, random: &mut Random) -> Option<Damaged> {
        match damage {
            Damage::ByOne => self.changed_value(random, |value, random| {
                let by = random.pick(&[-1, 1]);
                value.checked_add(by).unwrap_or_else(|| value - by)
            }),
            Damage::ToAnEnd => self.changed_value(random, |_, random| {
                random.pick(&[i32::MIN, i32::MIN + 1, i32::MAX - 1, i32::MAX])
            }),
            Damage::NoBoolean => self.no_boolean(random),
            Damage::Dropped | Damage::Doubled => self.dropped_or_doubled(damage, random),
            Damage::Exchanged => self.exchanged(random),
            Damage::OtherTag | Damage::UnusedColumn => self.bad_row(damage, random),
            Damage::OutOfForm => self.out_of_form(random),
            Damage::Byte => Some(self.other_byte(random)),
            Damage::OtherEvent => self.other_event(random),
            Damage::OtherIdentifier => self.other_identifier(random),
            Damage::Torn | Damage::Cut | Damage::CutInside => self.ended(damage, random),
            Damage::Emptied => Some(Damaged {
                log: vec![],
                place: 0,
            }),
            Damage::OtherValues => self.other_values(random),
            Damage::StepDropped | Damage::StepDoubled => self.other_steps(damage, random),
            Damage::StepsExchanged => self.steps_exchanged(random),
            Damage::KeptChanged => self.kept_changed(random),
            Damage::More => Some(self.more(random)),
        }
    }

    /// Any row, one in three times one of the last step.
    fn any_row(&self, random: &mut Random) -> usize {
        if random.one_in(3) {
            let last = self.run.step(self.run.starts.len() - 1);
            return random.between(last.start, last.end - 1);
        }
        random.below(self.run.rows())
    }

    /// Any row of which this is true, of a few.
    fn any_row_with(&self, random: &mut Random, fits: impl Fn(usize) -> bool) -> Option<usize> {
        (0..12)
            .map(|_| self.any_row(random))
            .find(|&place| fits(place))
    }

    fn with_row(&self, place: usize, row: Row) -> Damaged {
        let mut log = self.run.bytes.clone();
        set_row(&mut log, place, row);
        Damaged { log, place }
    }

    fn changed_value(
        &self,
        random: &mut Random,
        new: impl Fn(i32, &mut Random) -> i32,
    ) -> Option<Damaged> {
        let place = self.any_row_with(random, |place| !self.run.is_start(place))?;
        let row = self.run.row(place);
        let b = new(row.b, random);
        (b != row.b).then(|| self.with_row(place, Row { b, ..row }))
    }

    fn is_boolean(&self, place: usize) -> bool {
        let identifier = self.table.identifier(self.run.row(place).a);
        !self.run.is_start(place) && identifier.is_some_and(|one| one.type_number == BOOLEAN)
    }

    fn no_boolean(&self, random: &mut Random) -> Option<Damaged> {
        let place = self.any_row_with(random, |place| self.is_boolean(place))?;
        let b = random.pick(&[2, 2, -1, -1, 3, 10, 256, i32::MIN, i32::MAX]);
        Some(self.with_row(
            place,
            Row {
                b,
                ..self.run.row(place)
            },
        ))
    }

    fn dropped_or_doubled(&self, damage: Damage, random: &mut Random) -> Option<Damaged> {
        let place = self.any_row(random);
        let mut log = self.run.bytes.clone();
        let at = place * ROW_BYTES;
        if damage == Damage::Dropped {
            log.drain(at..at + ROW_BYTES);
        } else {
            let row = self.run.rows_in(place..place + 1);
            log.splice(at..at, row.iter().copied());
        }
        Some(Damaged { log, place })
    }

    fn exchanged(&self, random: &mut Random) -> Option<Damaged> {
        let place = self.any_row(random);
        let other = match random.one_in(3) {
            true => self.any_row(random),
            false => place + 1,
        };
        let (first, second) = (place.min(other), place.max(other));
        if second >= self.run.rows() || self.run.row(first) == self.run.row(second) {
            return None;
        }
        let mut log = self.run.bytes.clone();
        set_row(&mut log, first, self.run.row(second));
        set_row(&mut log, second, self.run.row(first));
        Some(Damaged { log, place: first })
    }

    fn bad_row(&self, damage: Damage, random: &mut Random) -> Option<Damaged> {
        let place = self.any_row(random);
        let mut row = self.run.row(place);
        if damage == Damage::OtherTag {
            // 91 for 90 and back; for any other tag one that fits the columns too.
            let other = (90 + 91 - row.tag).max(-999);
            row.tag = random.pick(&[other, other, 92, 89, 80, 10, 0, -9, 9, 9999, -999]);
        } else {
            let number = random.pick(&[1, -1, 91, i32::MIN, i32::MAX]);
            match row.tag == 90 && random.one_in(2) {
                true => row.b = number,
                false => row.c = number,
            }
        }
        Some(self.with_row(place, row))
    }

    /// A number with a sign, a zero or a byte too many, too large, not to the right or missing, or another last byte.
    fn out_of_form(&self, random: &mut Random) -> Option<Damaged> {
        let place = self.any_row(random);
        let mut log = self.run.bytes.clone();
        let row = &mut log[place * ROW_BYTES..(place + 1) * ROW_BYTES];
        if random.one_in(4) {
            row[ROW_BYTES - 1] = random.pick(&[b' ', b'0', 0, 13, 255]);
            return Some(Damaged { log, place });
        }
        let start = random.pick(&[0, 4, 15, 26]);
        let end = if start == 0 { 4 } else { start + 11 };
        let columns = &mut row[start..end];
        match random.below(6) {
            0 => columns.fill(b' '),
            1 => columns.rotate_left(1),
            2 => columns[0] = random.pick(b"0x+-\t"),
            3 => columns[columns.len() - 1] = random.pick(b" x-.\n\0\xff"),
            4 if start > 0 => columns.copy_from_slice(random.pick(&[
                b" 2147483648",
                b"-2147483649",
                b"99999999999",
            ])),
            _ => columns[..2].copy_from_slice(random.pick(&[b" 0", b"+1", b"--", b"-0", b"0 "])),
        }
        read_row(row).is_none().then_some(Damaged { log, place })
    }

    fn other_byte(&self, random: &mut Random) -> Damaged {
        let place = self.any_row(random);
        let mut log = self.run.bytes.clone();
        let byte = &mut log[place * ROW_BYTES + random.below(ROW_BYTES)];
        *byte = random.pick(b"  0123456789--+\n\0x");
        Damaged { log, place }
    }

    fn other_event(&self, random: &mut Random) -> Option<Damaged> {
        let step = random.below(self.run.starts.len());
        let (place, events) = (self.run.starts[step], self.table.events.len() as i32);
        let row = self.run.row(place);
        let far = [
            0,
            -1,
            row.a.wrapping_neg(),
            events + 1,
            events.wrapping_add(row.a),
            i32::MIN,
            i32::MAX,
        ];
        let a = match random.below(4) {
            0 => random.pick(&far),
            1 => self.machine.initial,
            _ => 1 + random.below(events as usize) as i32,
        };
        (a != row.a).then(|| self.with_row(place, Row { a, ..row }))
    }

    fn other_identifier(&self, random: &mut Random) -> Option<Damaged> {
        let place = self.any_row_with(random, |place| !self.run.is_start(place))?;
        let row = self.run.row(place);
        let all = self.table.identifiers.len();
        let any = 1 + random.below(all) as i32;
        let far = [
            any,
            any,
            row.a.wrapping_add(1),
            row.a.wrapping_sub(1),
            0,
            row.a.wrapping_neg(),
            all as i32 + 1,
        ];
        let a = random.pick(&far);
        (a != row.a).then(|| self.with_row(place, Row { a, ..row }))
    }

    fn ended(&self, damage: Damage, random: &mut Random) -> Option<Damaged> {
        let place = match damage {
            Damage::CutInside => self.any_row_with(random, |place| !self.run.is_start(place))?,
            _ => self.any_row(random),
        };
        let more = match damage {
            Damage::Torn => random.between(1, ROW_BYTES - 1),
            _ => 0,
        };
        let log = self.run.bytes[..place * ROW_BYTES + more].to_vec();
        Some(Damaged { log, place })
    }

    /// The values of another step, of the same event if there is one.
    fn other_values(&self, random: &mut Random) -> Option<Damaged> {
        let steps = self.run.starts.len();
        let into = random.below(steps);
        let event = |step: usize| self.run.row(self.run.starts[step]).a;
        let same = (0..6).map(|_| random.below(steps));
        let from = same
            .filter(|&step| step != into)
            .max_by_key(|&step| event(step) == event(into))?;
        let (into, from) = (self.run.step(into), self.run.step(from));
        let mut log = self.run.bytes.clone();
        let values = self.run.rows_in(from.start + 1..from.end).to_vec();
        let places = (into.start + 1) * ROW_BYTES..into.end * ROW_BYTES;
        log.splice(places, values);
        (log != self.run.bytes).then_some(Damaged {
            log,
            place: into.start,
        })
    }

    fn other_steps(&self, damage: Damage, random: &mut Random) -> Option<Damaged> {
        let rows = self.run.step(random.below(self.run.starts.len()));
        let mut log = self.run.bytes.clone();
        let at = rows.start * ROW_BYTES;
        if damage == Damage::StepDropped {
            log.drain(at..rows.end * ROW_BYTES);
        } else {
            log.splice(at..at, self.run.rows_in(rows.clone()).to_vec());
        }
        Some(Damaged {
            log,
            place: rows.start,
        })
    }

    fn steps_exchanged(&self, random: &mut Random) -> Option<Damaged> {
        let pairs: Vec<usize> = (1..self.run.starts.len()).collect();
        let step = random.maybe(&pairs)? - 1;
        let (first, second) = (self.run.step(step), self.run.step(step + 1));
        let mut log = self.run.bytes[..first.start * ROW_BYTES].to_vec();
        log.extend(self.run.rows_in(second.clone()));
        log.extend(self.run.rows_in(first.clone()));
        log.extend(&self.run.bytes[second.end * ROW_BYTES..]);
        Some(Damaged {
            log,
            place: first.start,
        })
    }

    fn kept_changed(&self, random: &mut Random) -> Option<Damaged> {
        let place = self.any_row_with(random, |place| self.is_kept(place))?;
        let row = self.run.row(place);
        let b = match self.is_boolean(place) {
            true => 1 - row.b,
            false => random.pick(&[row.b ^ 1, -row.b.max(1), 0, i32::MAX]),
        };
        (b != row.b).then(|| self.with_row(place, Row { b, ..row }))
    }

    /// Whether this is the row of a variable that its step doesn't assign.
    pub fn is_kept(&self, place: usize) -> bool {
        let start = self.run.starts[self.run.step_of(place)];
        let step = self.machine.step(self.run.row(start).a);
        let variable = self.run.row(place).a as usize - 1;
        let kept = |step: &Step| step.variables.contains(&(variable, Change::Kept));
        !self.run.is_start(place) && step.is_some_and(kept)
    }

    fn more(&self, random: &mut Random) -> Damaged {
        let mut log = self.run.bytes.clone();
        let place = self.run.rows();
        let last = self.run.rows_in(place - 1..place).to_vec();
        match random.below(5) {
            0 => log.extend(last),
            1 => log.extend(&last[..random.between(1, ROW_BYTES - 1)]),
            2 => log.extend(vec![random.pick(b" 0\n"); random.between(1, 2 * ROW_BYTES)]),
            3 => log.extend(self.run.rows_in(self.run.step(0))),
            _ => {
                let event = random.below(self.table.events.len() + 2) as i32;
                log.extend(bytes_of(&[Row::new(90, event, 0, 0)]));
            }
        }
        Damaged { log, place }
    }
}
