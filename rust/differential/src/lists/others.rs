//! The other calls of a list, and calls with arguments that no form holds.

use super::Scene;
use crate::calls::Call;
use crate::damage::{damaged, damaged_object};
use crate::notes::{code, steps_of};

impl Scene<'_> {
    pub(super) fn any_call(&mut self) {
        match self.random.below(100) {
            0..58 => self.filing(),
            58..67 => self.any_advance(),
            67..71 => self.damaged(),
            71..77 => self.damaged_object(),
            77..81 => self.any_load(),
            81..83 => self.enrolment(),
            83..94 => self.question(),
            _ => self.wild(),
        }
    }

    pub(super) fn any_advance(&mut self) {
        let (day, minute) = (self.day, self.minute);
        let end = 30 * steps_of(day) as u32;
        let (day, minute) = match self.random.below(40) {
            0 => (day, minute),
            1 => (day, minute.saturating_sub(1)),
            2 => (day.saturating_sub(1), minute),
            3 => (day, end),
            4 => (day, end - 1 - self.random.below(95) as u32),
            5 => (day + 1, self.random.below(1500) as u32),
            6 => (*self.random.pick(&self.days), self.random.below(1500) as u32),
            7 => (self.random.wild(), self.random.wild()),
            8..14 => (day, minute / 30 * 30 + 30),
            _ => (day, minute + self.random.below(90) as u32),
        };
        self.advance(day, minute);
    }

    pub(super) fn any_load(&mut self) {
        let (actor, category, day) = (self.actor(), self.category(), self.any_day());
        let mut approved = self.approved();
        let mut powers = self.loaded(approved, steps_of(day));
        match self.random.below(8) {
            0 => powers.truncate(46),
            1 => powers.extend([0, 0]),
            2 => approved = self.random.wild(),
            3 => {
                let at = self.random.below(powers.len());
                powers[at] = self.random.wild();
            }
            _ => {}
        }
        self.load(&actor, &category, day, approved, powers);
    }

    pub(super) fn enrolment(&mut self) {
        let call = match self.random.below(4) {
            0 => Call::EnrolCategory { text: self.category() },
            1 => Call::EnrolCategory { text: self.any_text(5) },
            2 => Call::EnrolActor { code: self.actor(), first: self.day, last: self.any_day() },
            _ => Call::EnrolActor { code: code(7), first: self.random.wild(), last: self.random.wild() },
        };
        self.calls.push(call);
    }

    pub(super) fn question(&mut self) {
        let call = match self.random.below(4) {
            0 | 1 => {
                let step = if self.random.one_in(10) { self.random.wild() } else { self.random.below(50) as u32 };
                Call::Engagement { actor: self.actor(), category: self.category(), day: self.any_day(), step }
            }
            2 => Call::Record { asker: self.actor(), id: self.random.below(self.filings.len() + 3) as u32 },
            _ => Call::History { actor: self.actor(), length: self.random.below(self.filings.len() + 3) },
        };
        self.calls.push(call);
    }

    /// Arguments that no form holds.
    pub(super) fn wild(&mut self) {
        let call = match self.random.below(8) {
            0 => Call::EnrolActor { code: self.any_text(16), first: self.random.wild(), last: self.random.wild() },
            1 => Call::EnrolCategory { text: self.any_text(5) },
            2 => {
                let count = self.random.below(120);
                let powers = (0..count).map(|_| self.random.wild()).collect();
                let (day, approved) = (self.random.wild(), self.random.wild());
                Call::Load { actor: self.any_text(16), category: self.any_text(5), day, approved, powers }
            }
            3 => {
                let (name, body) = (self.random.below(70), self.random.below(1200));
                Call::File {
                    submitter: self.any_text(16),
                    name: self.random.bytes(name),
                    body: self.random.bytes(body),
                }
            }
            4 => {
                let (day, step) = (self.random.wild(), self.random.wild());
                Call::Engagement { actor: self.actor(), category: self.category(), day, step }
            }
            5 => Call::Record { asker: self.actor(), id: self.random.wild() },
            6 => {
                let length = self.random.below(1200);
                let marks = self.random.one_in(2).then_some(b"{}[]:,\"C0 ");
                let body = match marks {
                    Some(marks) => (0..length).map(|_| *self.random.pick(marks)).collect(),
                    None => self.random.bytes(length),
                };
                Call::FileObject { submitter: self.any_text(16), body }
            }
            _ => Call::History { actor: self.any_text(16), length: self.random.below(300) },
        };
        self.calls.push(call);
    }

    pub(super) fn damaged(&mut self) {
        let note = self.note();
        let (name, body) = damaged(self.random, note);
        let submitter = self.actor();
        self.calls.push(Call::File { submitter, name, body });
    }

    /// An object with mistakes; its origin is its submitter, or isn't, or has another form.
    pub(super) fn damaged_object(&mut self) {
        let (note, submitter) = (self.note(), self.actor());
        let origin = match self.random.below(8) {
            0 | 1 => self.actor(),
            2 => self.any_text(16),
            _ => submitter.clone(),
        };
        let request = self.request(&note, origin);
        let body = damaged_object(self.random, request);
        self.calls.push(Call::FileObject { submitter, body });
    }
}
