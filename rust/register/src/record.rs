//! What the register tells of a filing.

use core::fmt::{self, Write};

use crate::{Code, Notification};

/// The status of a record; its value is the letter.
#[derive(Clone, Copy, Debug, PartialEq, Eq, Hash)]
#[repr(u8)]
pub enum Status {
    /// C: filed by one party, not matched.
    Created = b'C',
    /// A: created, then matched.
    Answered = b'A',
    /// S: replaced by its own submitter before it was matched.
    Deleted = b'S',
    /// V: matched when it was filed; it moves power.
    Validated = b'V',
    /// P: validated, and replaced from its until-step on.
    Updated = b'P',
    /// O: validated, and replaced at all its steps.
    Obsolete = b'O',
}

impl Status {
    /// The status of a letter, if it is one of the six.
    pub fn of(letter: u8) -> Option<Status> {
        use Status::*;
        [Created, Answered, Deleted, Validated, Updated, Obsolete].into_iter().find(|status| *status as u8 == letter)
    }

    /// The status's letter.
    pub fn letter(self) -> char {
        self as u8 as char
    }

    /// The status of a register that only calls have changed.
    pub(crate) fn known(letter: u32) -> Status {
        u8::try_from(letter).ok().and_then(Status::of).expect("a record has one of the six statuses")
    }
}

/// The letter.
impl fmt::Display for Status {
    fn fmt(&self, f: &mut fmt::Formatter<'_>) -> fmt::Result {
        f.write_char(self.letter())
    }
}

/// What an accepted filing is told.
#[derive(Clone, Copy, Debug, PartialEq, Eq)]
pub struct Filed {
    /// The id of the record that was made, from 1.
    pub id: u32,
    /// [`Status::Validated`] if the filing was matched, else [`Status::Created`].
    pub status: Status,
    /// The first counted step.
    pub from: u32,
}

/// A record, as its parties may see it.
#[derive(Clone, Copy, Debug, PartialEq, Eq)]
pub struct Record {
    /// Who filed it.
    pub submitter: Code,
    /// What was filed: key and powers.
    pub notification: Notification,
    /// Its status now.
    pub status: Status,
    /// The first step that it is about.
    pub from: u32,
    /// The step before which it ends.
    pub until: u32,
}
