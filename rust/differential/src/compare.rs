//! One list of calls on two sides: every answer, then everything that can be asked.

use std::collections::BTreeSet;
use std::fmt::Debug;

use peer::calendar::{day_of, steps};
use peer::object;

use crate::calls::{make, Answer, Call};
use crate::sides::Side;
use crate::tally::{Form, Late, Listed, Tally};

/// Where two sides differ.
pub struct Difference {
    /// How many of the list's calls were made.
    pub made: usize,
    pub asked: String,
    pub left: String,
    pub right: String,
}

/// A record: its key, who filed it and whether by an object, and its status when it was last asked for.
struct Held {
    ceder: Vec<u8>,
    acquirer: Vec<u8>,
    category: Vec<u8>,
    day: u16,
    submitter: Vec<u8>,
    object: bool,
    status: char,
}

impl Held {
    fn has_key_of(&self, other: &Held) -> bool {
        let parties = self.ceder == other.ceder && self.acquirer == other.acquirer;
        parties && self.category == other.category && self.day == other.day
    }
}

/// What the list has accepted so far, by the left side's answers.
#[derive(Default)]
struct Seen {
    /// The clock's day.
    day: u32,
    actors: Vec<Vec<u8>>,
    categories: Vec<Vec<u8>>,
    days: BTreeSet<u32>,
    records: Vec<Held>,
}

/// A difference, unless both are the same.
fn same<T: PartialEq + Debug>(
    made: usize, left: T, right: T, asked: impl FnOnce() -> String,
) -> Result<(), Difference> {
    if left == right {
        return Ok(());
    }
    Err(Difference { made, asked: asked(), left: format!("{left:?}"), right: format!("{right:?}") })
}

/// Makes the calls on two fresh sides.
pub fn run<A: Side, B: Side>(calls: &[Call], tally: &mut Tally) -> Result<(), Difference> {
    let (mut left, mut right, mut seen) = (A::fresh(), B::fresh(), Seen::default());
    for (i, call) in calls.iter().enumerate() {
        let (made, before) = (i + 1, left.clone());
        let answers = (make(&mut left, call), make(&mut right, call));
        tally.answer(call.kind(), &answers.0);
        if let Answer::No { .. } = answers.0 {
            same(made, left.is_as(&before), true, || format!("whether '{call}' left the register as it was"))?;
        }
        let filed = matches!(answers.0, Answer::Filed { .. });
        seen.note(call, &answers.0, tally);
        if let Call::History { actor, length } = call {
            tally.history(&seen.listed(actor), *length);
        }
        same(made, answers.0, answers.1, || call.to_string())?;
        // The records are compared after each filing while they are few, and now and then when they are many.
        if filed && (seen.records.len() < 64 || seen.records.len() % 16 == 0) {
            records(made, &left, &right, &mut seen, tally)?;
        }
    }
    records(calls.len(), &left, &right, &mut seen, tally)?;
    everything(calls.len(), &left, &right, &seen, tally)
}

impl Seen {
    fn note(&mut self, call: &Call, answer: &Answer, tally: &mut Tally) {
        match (call, answer) {
            (Call::Load { day, .. }, Answer::No { number: 39, .. }) if *day == self.day + 1 => tally.late(Late::Load),
            (_, Answer::No { .. } | Answer::NoButWrote { .. }) => {}
            (Call::Advance { day, .. }, _) => {
                self.day = *day;
                self.days.extend([day.saturating_sub(1), *day, day + 1]);
            }
            (Call::EnrolActor { code, .. }, _) => self.actors.push(code.clone()),
            (Call::EnrolCategory { text }, _) => self.categories.push(text.clone()),
            (Call::Load { day, .. }, _) => self.days.extend([*day]),
            (Call::File { submitter, name, .. }, Answer::Filed { status, from, .. }) => {
                let day = day_of(&name[38..46]).expect("an accepted name has a date");
                let (ceder, acquirer) = (name[4..20].to_vec(), name[21..37].to_vec());
                let (category, submitter) = (name[47..name.len() - 4].to_vec(), submitter.clone());
                let held = Held { ceder, acquirer, category, day, submitter, object: false, status: *status };
                self.filed(held, *from, false, tally);
            }
            (Call::FileObject { submitter, body }, Answer::Filed { status, from, .. }) => {
                // Where the peer reads no object, the answers differ.
                let Ok(n) = object::read(body).map(|object| object.notification) else { return };
                let category = n.category.strip_suffix(&[0]).unwrap_or(&n.category).to_vec();
                let (ceder, acquirer, submitter) = (n.ceder.to_vec(), n.acquirer.to_vec(), submitter.clone());
                let held = Held { ceder, acquirer, category, day: n.day, submitter, object: true, status: *status };
                let blanks = body.iter().any(|b| b" \t\r\n".contains(b));
                self.filed(held, *from, blanks, tally);
            }
            _ => {}
        }
    }

    /// An accepted filing. Of the other party's records under the key only the last can be one that it answers.
    fn filed(&mut self, held: Held, from: u32, blanks: bool, tally: &mut Tally) {
        tally.filed(steps(held.day), from);
        if from == 1 {
            tally.late(Late::Filed(steps(self.day as u16), steps(held.day)));
        }
        let mut others = self.records.iter().rev().filter(|r| r.has_key_of(&held) && r.submitter != held.submitter);
        let answered = others.next().filter(|_| held.status == 'V').map(|r| r.object);
        tally.form(Form { object: held.object, blanks, status: held.status, answered });
        tally.change('-', held.status);
        self.records.push(held);
    }

    /// The records that an actor is a party to, in the order of filing.
    fn listed(&self, actor: &[u8]) -> Vec<Listed> {
        let mine = self.records.iter().filter(|r| r.ceder == actor || r.acquirer == actor);
        mine.map(|r| Listed { day: r.day, status: r.status }).collect()
    }
}

/// Every record, asked for by its ceder, with its status's change.
fn records<A: Side, B: Side>(
    made: usize, left: &A, right: &B, seen: &mut Seen, tally: &mut Tally,
) -> Result<(), Difference> {
    for (id, Held { ceder, status, .. }) in (1..).zip(&mut seen.records) {
        let answer = left.record(ceder, id);
        if let Some((shown, now)) = answer.as_ref().ok().map(|shown| (shown, shown.status as char)) {
            if now != *status {
                tally.change(*status, now);
                *status = now;
                match (now, shown.from, shown.until) {
                    ('P', 0, 1) => tally.late(Late::Updated),
                    ('O', 1, _) => tally.late(Late::Obsolete),
                    _ => {}
                }
            }
            if (now, shown.until, shown.day) == ('P', 1, seen.day) {
                tally.late(Late::Midnight);
            }
        }
        same(made, answer, right.record(ceder, id), || format!("record {id} for its ceder"))?;
    }
    Ok(())
}

/// Every engagement, every record for every asker, every history.
fn everything<A: Side, B: Side>(
    made: usize, left: &A, right: &B, seen: &Seen, tally: &mut Tally,
) -> Result<(), Difference> {
    let (nobody, none) = (b"17X000000000000-".to_vec(), b"00000C".to_vec());
    for actor in seen.actors.iter().chain([&nobody]) {
        let text = || actor.escape_ascii().to_string();
        for category in seen.categories.iter().chain([&none]) {
            for day in &seen.days {
                for step in 0..=50 {
                    let answers =
                        (left.engagement(actor, category, *day, step), right.engagement(actor, category, *day, step));
                    same(made, answers.0, answers.1, || {
                        format!("engagement {} {} day {day} step {step}", text(), category.escape_ascii())
                    })?;
                }
            }
        }
        for id in 0..seen.records.len() as u32 + 2 {
            let answers = (left.record(actor, id), right.record(actor, id));
            same(made, answers.0, answers.1, || format!("record {id} for {}", text()))?;
        }
        let listed = seen.listed(actor);
        let count = listed.len();
        for length in BTreeSet::from([0, 1, count.saturating_sub(1), count, count + 1, 256, 300]) {
            let call = Call::History { actor: actor.clone(), length };
            let answers = (make(&mut left.clone(), &call), make(&mut right.clone(), &call));
            tally.history(&listed, length);
            same(made, answers.0, answers.1, || call.to_string())?;
        }
    }
    Ok(())
}

/// A shorter list that still differs: calls are left out, first many at once, as long as the rest differs.
pub fn shortened<A: Side, B: Side>(calls: &[Call]) -> Vec<Call> {
    let differs = |calls: &[Call]| run::<A, B>(calls, &mut Tally::default()).err();
    let made = differs(calls).map_or(calls.len(), |difference| difference.made);
    let (mut short, mut width) = (calls[..made].to_vec(), made.div_ceil(2).max(1));
    loop {
        let mut at = 0;
        while at < short.len() {
            let mut fewer = short.clone();
            fewer.drain(at..short.len().min(at + width));
            match differs(&fewer) {
                Some(_) => short = fewer,
                None => at += width,
            }
        }
        if width == 1 {
            return short;
        }
        width = width.div_ceil(2);
    }
}
