//! Calls and answers.

use std::fmt;

use crate::sides::{Shown, Side};

/// A call with its arguments.
#[derive(Clone)]
pub enum Call {
    Advance { day: u32, minute: u32 },
    EnrolActor { code: Vec<u8>, first: u32, last: u32 },
    EnrolCategory { text: Vec<u8> },
    Load { actor: Vec<u8>, category: Vec<u8>, day: u32, approved: u32, powers: Vec<u32> },
    File { submitter: Vec<u8>, name: Vec<u8>, body: Vec<u8> },
    FileObject { submitter: Vec<u8>, body: Vec<u8> },
    Engagement { actor: Vec<u8>, category: Vec<u8>, day: u32, step: u32 },
    Record { asker: Vec<u8>, id: u32 },
    History { actor: Vec<u8>, length: usize },
}

/// Which call it is.
#[derive(Clone, Copy, Debug, PartialEq, Eq, PartialOrd, Ord)]
pub enum Kind {
    Advance,
    EnrolActor,
    EnrolCategory,
    Load,
    File,
    FileObject,
    Engagement,
    Record,
    History,
    Read,
    Write,
    ReadObject,
    WriteObject,
}

impl Call {
    pub fn kind(&self) -> Kind {
        match self {
            Call::Advance { .. } => Kind::Advance,
            Call::EnrolActor { .. } => Kind::EnrolActor,
            Call::EnrolCategory { .. } => Kind::EnrolCategory,
            Call::Load { .. } => Kind::Load,
            Call::File { .. } => Kind::File,
            Call::FileObject { .. } => Kind::FileObject,
            Call::Engagement { .. } => Kind::Engagement,
            Call::Record { .. } => Kind::Record,
            Call::History { .. } => Kind::History,
        }
    }
}

impl fmt::Display for Call {
    fn fmt(&self, f: &mut fmt::Formatter<'_>) -> fmt::Result {
        let text = |bytes: &[u8]| format!("'{}'", bytes.escape_ascii());
        match self {
            Call::Advance { day, minute } => write!(f, "advance day {day} minute {minute}"),
            Call::EnrolActor { code, first, last } => write!(f, "enrol actor {} {first} {last}", text(code)),
            Call::EnrolCategory { text: category } => write!(f, "enrol category {}", text(category)),
            Call::Load { actor, category, day, approved, powers } => {
                write!(f, "load {} {} day {day} approved {approved} {powers:?}", text(actor), text(category))
            }
            Call::File { submitter, name, body } => {
                write!(f, "file by {} {}\n        {}", text(submitter), text(name), text(body))
            }
            Call::FileObject { submitter, body } => {
                write!(f, "file by {} the object\n        {}", text(submitter), text(body))
            }
            Call::Engagement { actor, category, day, step } => {
                write!(f, "engagement {} {} day {day} step {step}", text(actor), text(category))
            }
            Call::Record { asker, id } => write!(f, "record {id} for {}", text(asker)),
            Call::History { actor, length } => write!(f, "history of {} into {length} places", text(actor)),
        }
    }
}

/// What a call answers, with all that it wrote into what it was lent.
#[derive(Clone, Debug, PartialEq)]
pub enum Answer {
    Done,
    Count(u32),
    Filed {
        id: u32,
        status: char,
        from: u32,
    },
    Power(i64),
    Shown(Box<Shown>),
    /// How many ids there are, and the whole buffer: the ids in their order and what stands after them.
    Ids(usize, Vec<u32>),
    No {
        number: u32,
        place: u32,
    },
    /// A refusal that wrote something: that is never right.
    NoButWrote {
        number: u32,
        place: u32,
    },
}

/// What stands in a lent buffer before the call; no id.
pub const UNTOUCHED: u32 = 43_981;

/// Makes a call.
pub fn make<S: Side>(side: &mut S, call: &Call) -> Answer {
    let answer = match call {
        Call::Advance { day, minute } => side.advance(*day, *minute).map(|()| Answer::Done),
        Call::EnrolActor { code, first, last } => side.enrol_actor(code, *first, *last).map(Answer::Count),
        Call::EnrolCategory { text } => side.enrol_category(text).map(Answer::Count),
        Call::Load { actor, category, day, approved, powers } => {
            side.load(actor, category, *day, *approved, powers).map(Answer::Count)
        }
        Call::File { submitter, name, body } => side.file(submitter, name, body).map(filed),
        Call::FileObject { submitter, body } => side.file_object(submitter, body).map(filed),
        Call::Engagement { actor, category, day, step } => {
            side.engagement(actor, category, *day, *step).map(Answer::Power)
        }
        Call::Record { asker, id } => side.record(asker, *id).map(|shown| Answer::Shown(Box::new(shown))),
        Call::History { actor, length } => return history(side, actor, *length),
    };
    answer.unwrap_or_else(|(number, place)| Answer::No { number, place })
}

fn filed((id, status, from): (u32, u8, u32)) -> Answer {
    Answer::Filed { id, status: status as char, from }
}

fn history<S: Side>(side: &S, actor: &[u8], length: usize) -> Answer {
    let mut ids = vec![UNTOUCHED; length];
    match side.history(actor, &mut ids) {
        Ok(count) => Answer::Ids(count, ids),
        Err((number, place)) if ids.iter().any(|id| *id != UNTOUCHED) => Answer::NoButWrote { number, place },
        Err((number, place)) => Answer::No { number, place },
    }
}
