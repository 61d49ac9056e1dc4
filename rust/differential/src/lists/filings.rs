//! Filings of a list: new ones, and what may follow an earlier one.

use peer::calendar::day_of;
use peer::object::Moment;

use super::{Filing, Scene};
use crate::calls::Call;
use crate::layouts::{laid_out, tokens_in};
use crate::notes::{code, date, steps_of, Note};
use crate::requests::Request;

impl Scene<'_> {
    /// Powers of a filing: one level, two levels, steps that may count no longer, or anything.
    pub(super) fn powers(&mut self, count: usize) -> Vec<u32> {
        let (a, b, turn) = (self.level(), self.level(), self.random.below(count));
        match self.random.below(8) {
            0..4 => vec![a; count],
            4 => (0..count).map(|k| if k < turn { a } else { b }).collect(),
            5 => (0..count).map(|k| if k < turn { 0 } else { a }).collect(),
            6 => (0..count).map(|k| if k <= turn { a } else { 0 }).collect(),
            _ => (0..count).map(|_| self.level()).collect(),
        }
    }

    /// A low power more often than a high one.
    pub(super) fn level(&mut self) -> u32 {
        let count = self.levels.len();
        self.levels[self.random.below(count).min(self.random.below(count))]
    }

    /// Another actor than these two.
    pub(super) fn third(&mut self, a: &[u8], b: &[u8]) -> Vec<u8> {
        let others: Vec<&Vec<u8>> = self.codes.iter().filter(|code| **code != a && **code != b).collect();
        if others.is_empty() {
            return a.to_vec();
        }
        self.random.pick(&others).to_vec()
    }

    pub(super) fn note(&mut self) -> Note {
        let ceder = self.actor();
        let mut acquirer = self.actor();
        if acquirer == ceder && !self.random.one_in(12) {
            acquirer = self.third(&ceder, &ceder);
        }
        let day = self.any_day();
        Note { ceder, acquirer, category: self.category(), date: date(day), powers: self.powers(steps_of(day)) }
    }

    pub(super) fn file(&mut self, note: &Note, by: &[u8]) {
        let call = if self.random.one_in(3) {
            self.object(note, by)
        } else {
            let (name, body) = note.file();
            Call::File { submitter: by.to_vec(), name, body }
        };
        self.calls.push(call);
        // Only what may be accepted is worth an answer.
        let parties = [&note.ceder, &note.acquirer];
        let known = parties.iter().all(|party| self.codes.contains(party)) && self.categories.contains(&note.category);
        let day = day_of(&note.date).map_or(0, u32::from);
        if known && note.ceder != note.acquirer && (self.day..=self.day + 7).contains(&day) {
            self.filings.push(Filing { note: note.clone(), by: by.to_vec() });
        }
    }

    /// The filing of an object, nearly always with its submitter as the origin.
    fn object(&mut self, note: &Note, by: &[u8]) -> Call {
        let origin = match self.random.below(60) {
            0 => self.third(by, by),
            1 => self.actor(),
            _ => by.to_vec(),
        };
        let text = self.request(note, origin).text(self.random);
        Call::FileObject { submitter: by.to_vec(), body: laid_out(self.random, &tokens_in(&text)) }
    }

    pub(super) fn request(&mut self, note: &Note, origin: Vec<u8>) -> Request {
        let second = *self.random.pick(&[0, 1, 59, 60, 3599, 3600, 36_000, 86_399]);
        Request { note: note.clone(), origin, moment: Moment { day: self.day, second } }
    }

    pub(super) fn file_by_both(&mut self, note: &Note) {
        let (first, second) =
            if self.random.one_in(2) { (&note.ceder, &note.acquirer) } else { (&note.acquirer, &note.ceder) };
        self.file(note, first);
        self.file(note, second);
    }

    /// One of the filings made last.
    pub(super) fn earlier(&mut self) -> Option<(Note, Vec<u8>)> {
        let last = self.filings.len().checked_sub(1)?;
        let filing = &self.filings[last - self.random.below(10).min(last)];
        Some((filing.note.clone(), filing.by.clone()))
    }

    pub(super) fn filing(&mut self) {
        let Some((note, by)) = self.earlier().filter(|_| !self.random.one_in(4)) else {
            return self.new_filing();
        };
        self.filing_after(note, &by);
    }

    pub(super) fn new_filing(&mut self) {
        let note = self.note();
        let by = match self.random.below(60) {
            0 => self.actor(),
            1 => self.any_text(16),
            2 => code(self.codes.len()),
            3..31 => note.ceder.clone(),
            _ => note.acquirer.clone(),
        };
        self.file(&note, &by);
    }

    /// What may follow an earlier filing.
    pub(super) fn filing_after(&mut self, mut note: Note, by: &[u8]) {
        let other = if by == note.ceder { note.acquirer.clone() } else { note.ceder.clone() };
        let count = note.powers.len();
        match self.random.below(20) {
            // Answered by the other party.
            0..6 => self.file(&note, &other),
            // Answered, with another power at one step, perhaps one that counts no longer.
            6 => {
                let at = if self.random.one_in(2) { 0 } else { self.random.below(count) };
                note.powers[at] += 1;
                self.file(&note, &other);
            }
            // Filed again by the same party, as it was or with other powers.
            7 => self.file(&note, by),
            8 => {
                note.powers = self.powers(count);
                self.file(&note, by);
            }
            // Replaced by both.
            9..12 => {
                note.powers = self.powers(count);
                self.file_by_both(&note);
            }
            12 => self.passed_on(note, true),
            13 => self.passed_on(note, false),
            // The opposite key.
            14 => {
                (note.ceder, note.acquirer) = (note.acquirer, note.ceder);
                self.file_by_both(&note);
            }
            // The clock moves between a filing and its answer, or before it is replaced.
            15 => {
                self.any_advance();
                self.file(&note, &other);
            }
            // For another day, which may be an earlier one.
            16 | 17 => {
                let day = self.any_day();
                (note.date, note.powers) = (date(day), self.powers(steps_of(day)));
                self.file(&note, by);
            }
            _ => {
                note.powers = self.powers(count);
                self.file(&note, by);
                self.any_advance();
                self.file(&note, &other);
            }
        }
    }

    /// An exchange, then a second one by which its acquirer cedes on or its ceder acquires, then the first replaced by less or by more.
    pub(super) fn passed_on(&mut self, mut note: Note, ceded: bool) {
        let third = self.third(&note.ceder, &note.acquirer);
        let mut second = note.clone();
        (second.ceder, second.acquirer) =
            if ceded { (note.acquirer.clone(), third) } else { (third, note.ceder.clone()) };
        let count = note.powers.len();
        if self.random.one_in(2) {
            second.powers = self.powers(count);
        }
        self.file_by_both(&note);
        self.file_by_both(&second);
        if self.random.one_in(3) {
            self.any_advance();
        }
        let level = self.level();
        note.powers.iter_mut().for_each(|power| *power = if ceded { level.min(*power) } else { *power / 8 + 1 });
        self.file_by_both(&note);
    }
}
