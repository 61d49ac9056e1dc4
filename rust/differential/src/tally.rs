//! How often each answer, each refusal, each change of a status, each form of an accepted filing, each kind of history, each case of a
//! day's last half hour and each kind of cut through a body was met.

use std::collections::{BTreeMap, BTreeSet};

use peer::calendar::steps;

use crate::calls::{Answer, Kind};

/// The refusals that each call can give, by document 01's "Order" and K3 of document 02.
const REFUSALS: [(Kind, &[u32]); 13] = [
    (Kind::Advance, &[10, 38]),
    (Kind::EnrolActor, &[9, 10, 37, 36]),
    (Kind::EnrolCategory, &[9, 37, 36]),
    (Kind::Load, &[10, 22, 23, 39, 37, 36]),
    (Kind::File, &[1, 2, 3, 4, 5, 6, 7, 8, 20, 21, 22, 23, 24, 25, 26, 27, 28, 29, 30, 31, 32, 33, 34, 35, 36]),
    (Kind::FileObject, &[42, 5, 6, 7, 8, 43, 20, 21, 22, 23, 24, 25, 26, 27, 28, 29, 30, 31, 32, 33, 34, 35, 36]),
    (Kind::Engagement, &[22, 23, 10]),
    (Kind::Record, &[22, 40, 41]),
    (Kind::History, &[22, 36]),
    (Kind::Read, &[1, 2, 3, 4, 5, 6, 7, 8]),
    (Kind::Write, &[9, 10, 8, 36]),
    (Kind::ReadObject, &[42, 5, 6, 7, 8]),
    (Kind::WriteObject, &[9, 10, 8, 36]),
];

/// An accepted filing: whether it is an object, with blanks or not, its status, and whether what it answers is an object.
#[derive(Clone, Copy)]
pub struct Form {
    pub object: bool,
    pub blanks: bool,
    pub status: char,
    pub answered: Option<bool>,
}

const FORMS: [(&str, fn(Form) -> bool); 9] = [
    ("files C", |form| !form.object && form.status == 'C'),
    ("files V", |form| !form.object && form.status == 'V'),
    ("objects C", |form| form.object && form.status == 'C'),
    ("objects V", |form| form.object && form.status == 'V'),
    ("objects with blanks", |form| form.object && form.blanks),
    ("objects without", |form| form.object && !form.blanks),
    ("objects that answer a file", |form| form.object && form.answered == Some(false)),
    ("files that answer an object", |form| !form.object && form.answered == Some(true)),
    ("objects that answer an object", |form| form.object && form.answered == Some(true)),
];

/// Steps of the day of an accepted filing, and whether its first counted step is 0.
const DAYS: [(usize, bool); 6] = [(46, true), (46, false), (48, true), (48, false), (50, true), (50, false)];

/// The changes that rules 1 to 3 make; a record is born from nothing, here '-'.
const CHANGES: [(char, char); 6] = [('-', 'C'), ('-', 'V'), ('C', 'S'), ('C', 'A'), ('V', 'O'), ('V', 'P')];

/// A record of an actor whose history is asked for.
pub struct Listed {
    pub day: u16,
    pub status: char,
}

/// What a history of one record or more can hold, by the records in the order of filing.
const HISTORIES: [(&str, fn(&[Listed]) -> bool); 10] = [
    ("several days", |mine| days(mine).len() > 1),
    ("eight days", |mine| days(mine).len() == 8),
    ("days weeks apart", |mine| days(mine).last() > days(mine).first().map(|day| day + 21).as_ref()),
    ("not the order of filing", |mine| mine.windows(2).any(|two| two[1].day < two[0].day)),
    ("several in one day", |mine| days(mine).len() < mine.len()),
    ("a deleted record in between", |mine| between(mine, 'S')),
    ("an obsolete record in between", |mine| between(mine, 'O')),
    ("a short day among others", |mine| among_others(mine, 46)),
    ("a long day among others", |mine| among_others(mine, 50)),
    ("255 records or more, of eight days", |mine| mine.len() > 254 && days(mine).len() == 8),
];

fn days(mine: &[Listed]) -> BTreeSet<u16> {
    mine.iter().map(|r| r.day).collect()
}

/// A record of the status has others filed before and after it.
fn between(mine: &[Listed], status: char) -> bool {
    mine.len() > 2 && mine[1..mine.len() - 1].iter().any(|r| r.status == status)
}

/// Some days are of so many steps, and some aren't.
fn among_others(mine: &[Listed], count: usize) -> bool {
    [true, false].iter().all(|is| mine.iter().any(|r| (steps(r.day) == count) == *is))
}

/// How long a lent buffer can be, beside how many ids there are to list.
const BUFFERS: [(&str, fn(usize, usize) -> bool); 4] = [
    ("exactly long enough", |length, count| length == count && count > 0),
    ("one too short", |length, count| length + 1 == count),
    ("of no place, too short", |length, count| length == 0 && count > 0),
    ("longer", |length, count| length > count && count > 0),
];

/// What happens in the last half hour of a day, by K2 of document 02, to what is of the next one.
#[derive(Clone, Copy)]
pub enum Late {
    /// A filing from step 1 on: the steps of the clock's day and of the next one.
    Filed(usize, usize),
    /// A load of the next day is refused by 39.
    Load,
    /// A V from step 0 becomes P until step 1.
    Updated,
    /// A V from step 1 becomes O.
    Obsolete,
    /// A P until step 1 is there when the clock stands on its day.
    Midnight,
}

const LATE: [(&str, fn(Late) -> bool); 9] = [
    ("filings between days of 48 steps", |late| matches!(late, Late::Filed(48, 48))),
    ("filings on a day of 46", |late| matches!(late, Late::Filed(46, _))),
    ("filings on a day of 50", |late| matches!(late, Late::Filed(50, _))),
    ("filings for a day of 46", |late| matches!(late, Late::Filed(_, 46))),
    ("filings for a day of 50", |late| matches!(late, Late::Filed(_, 50))),
    ("loads of tomorrow refused by 39", |late| matches!(late, Late::Load)),
    ("V to P until 1", |late| matches!(late, Late::Updated)),
    ("V from 1 to O", |late| matches!(late, Late::Obsolete)),
    ("P until 1 seen after midnight", |late| matches!(late, Late::Midnight)),
];

/// What stands around a cut through a body: whether it is in line 1, how many bytes and semicolons of its line stand before it, how long
/// the line is, and the place in the body.
#[derive(Clone, Copy)]
pub struct Cut {
    pub first: bool,
    pub before: usize,
    pub semicolons: usize,
    pub line: usize,
    pub at: usize,
}

const CUTS: [(&str, fn(Cut) -> bool); 9] = [
    ("in the header", |cut| cut.first && cut.before > 0),
    ("in the first label", |cut| !cut.first && cut.before > 0 && cut.semicolons == 0),
    ("in the second label", |cut| !cut.first && cut.semicolons == 1),
    ("in the power", |cut| !cut.first && cut.semicolons == 2),
    ("before LF", |cut| cut.before > 0 && cut.before == cut.line),
    ("after LF", |cut| cut.before == 0 && cut.at > 0),
    ("in a line over 64 bytes, up to the 64th", |cut| cut.line > 64 && (1..=64).contains(&cut.before)),
    ("in a line over 64 bytes, after the 64th", |cut| cut.before > 64),
    ("past 4,096 bytes", |cut| cut.at > 4096),
];

#[derive(Default)]
pub struct Tally {
    /// By call and refusal, 0 for an accepted call.
    answers: BTreeMap<(Kind, u32), u64>,
    changes: BTreeMap<(char, char), u64>,
    days: BTreeMap<(usize, bool), u64>,
    forms: [u64; FORMS.len()],
    /// Histories that fit into their buffer, of one record or more.
    listed: u64,
    histories: [u64; HISTORIES.len()],
    buffers: [u64; BUFFERS.len()],
    late: [u64; LATE.len()],
    /// Bodies read in pieces, and those with an empty piece.
    cut: u64,
    empty: u64,
    cuts: [u64; CUTS.len()],
}

impl Tally {
    pub fn answer(&mut self, kind: Kind, answer: &Answer) {
        let number = match answer {
            Answer::No { number, .. } | Answer::NoButWrote { number, .. } => *number,
            _ => 0,
        };
        self.refusal(kind, number);
    }

    pub fn refusal(&mut self, kind: Kind, number: u32) {
        *self.answers.entry((kind, number)).or_default() += 1;
    }

    /// An accepted filing for a day of so many steps.
    pub fn filed(&mut self, steps: usize, from: u32) {
        *self.days.entry((steps, from == 0)).or_default() += 1;
    }

    pub fn form(&mut self, form: Form) {
        self.forms.iter_mut().zip(FORMS).for_each(|(count, (_, is))| *count += is(form) as u64);
    }

    pub fn change(&mut self, from: char, to: char) {
        *self.changes.entry((from, to)).or_default() += 1;
    }

    /// A history of these records, in the order of filing, into a buffer of so many places.
    pub fn history(&mut self, mine: &[Listed], length: usize) {
        let buffers = self.buffers.iter_mut().zip(BUFFERS);
        buffers.for_each(|(count, (_, is))| *count += is(length, mine.len()) as u64);
        if !mine.is_empty() && mine.len() <= length {
            self.listed += 1;
            self.histories.iter_mut().zip(HISTORIES).for_each(|(count, (_, is))| *count += is(mine) as u64);
        }
    }

    pub fn late(&mut self, late: Late) {
        self.late.iter_mut().zip(LATE).for_each(|(count, (_, is))| *count += is(late) as u64);
    }

    /// A body with these cuts, and perhaps an empty piece.
    pub fn cuts(&mut self, cuts: impl Iterator<Item = Cut>, empty: bool) {
        self.cut += 1;
        self.empty += empty as u64;
        cuts.for_each(|cut| self.cuts.iter_mut().zip(CUTS).for_each(|(count, (_, is))| *count += is(cut) as u64));
    }

    pub fn calls(&self) -> u64 {
        self.answers.values().sum()
    }

    /// Prints all counts and gives what was not met though it can be, and what was met though the documents don't have it.
    pub fn print(&self) -> Vec<String> {
        let mut wrong = Vec::new();
        for (kind, refusals) in REFUSALS {
            let count = |number: u32| self.answers.get(&(kind, number)).copied().unwrap_or(0);
            print!("{kind:?}: accepted {}; refused", count(0));
            for number in refusals {
                print!(" {number}: {}", count(*number));
            }
            println!();
            let missing = [0].iter().chain(refusals).filter(|number| count(**number) == 0);
            wrong.extend(missing.map(|number| format!("{kind:?} never answered {number}")));
            let others = self.answers.keys().filter(|(k, n)| *k == kind && *n != 0 && !refusals.contains(n));
            wrong.extend(others.map(|(_, number)| format!("{kind:?} answered {number}, which it can't")));
        }
        print!("accepted filings by steps of the day:");
        for (steps, whole) in DAYS {
            let count = self.days.get(&(steps, whole)).copied().unwrap_or(0);
            let from = if whole { "from step 0" } else { "from a later one" };
            print!(" {steps} {from} {count}");
            if count == 0 {
                wrong.push(format!("no filing was accepted for a day of {steps} steps {from}"));
            }
        }
        println!();
        print!("accepted filings by form:");
        for ((what, _), count) in FORMS.iter().zip(self.forms) {
            print!(" {what} {count};");
            if count == 0 {
                wrong.push(format!("no filing was accepted of {what}"));
            }
        }
        println!();
        print!("statuses:");
        for (from, to) in CHANGES {
            let count = self.changes.get(&(from, to)).copied().unwrap_or(0);
            print!(" {from} to {to} {count}");
            if count == 0 {
                wrong.push(format!("no status went from {from} to {to}"));
            }
        }
        println!();
        let others = self.changes.keys().filter(|change| !CHANGES.contains(change));
        wrong.extend(others.map(|(from, to)| format!("a status went from {from} to {to}")));
        print!("histories listed: {}", self.listed);
        for ((what, _), count) in HISTORIES.iter().zip(self.histories) {
            print!("; {what} {count}");
            if count == 0 {
                wrong.push(format!("no history was listed with {what}"));
            }
        }
        println!();
        print!("buffers of histories:");
        for ((what, _), count) in BUFFERS.iter().zip(self.buffers) {
            print!(" {what} {count}");
            if count == 0 {
                wrong.push(format!("no buffer of a history was {what}"));
            }
        }
        println!();
        print!("in the last half hour:");
        for ((what, _), count) in LATE.iter().zip(self.late) {
            print!(" {what} {count};");
            if count == 0 {
                wrong.push(format!("in the last half hour there were no {what}"));
            }
        }
        println!();
        print!("bodies in pieces: {}, with an empty piece {}; cuts", self.cut, self.empty);
        for ((what, _), count) in CUTS.iter().zip(self.cuts) {
            print!(" {what} {count};");
            if count == 0 {
                wrong.push(format!("no body was cut {what}"));
            }
        }
        println!();
        if self.empty == 0 {
            wrong.push("no piece was empty".to_string());
        }
        wrong
    }
}
