//! Random lists of calls. A list depends on its numbers alone and never on an answer, so that both sides, and each faulty peer, get
//! the same one.

mod filings;
mod others;

use peer::calendar::{day_of, LAST_DAY};

use crate::calls::Call;
use crate::notes::{code, steps_of, Note};
use crate::random::Random;

/// Clocks to start from: before short and long days, at both ends of the calendar, and ordinary ones.
const STARTS: [&[u8; 8]; 14] = [
    b"20210326",
    b"20210327",
    b"20211029",
    b"20211030",
    b"20000101",
    b"20000324",
    b"20000325",
    b"20210119",
    b"20210120",
    b"20240227",
    b"20991221",
    b"20991228",
    b"20991230",
    b"20991231",
];

/// Days about whose last half hour a list is: of 46 and 50 steps, and the days before them.
const EVES: [&[u8; 8]; 4] = [b"20210327", b"20210328", b"20211030", b"20211031"];

const CATEGORIES: [&[u8]; 6] = [b"13120", b"13120C", b"30090C", b"00000", b"99999", b"13121"];

/// Powers that meet the bounds of the approved ones often.
const SMALL: [u32; 8] = [1, 5, 10, 30, 35, 40, 60, 100];
const LARGE: [u32; 8] = [1, 9, 99, 4999, 5000, 9000, 9998, 9999];
const TINY: [u32; 4] = [1, 2, 3, 10];

/// A filing that the list has made: the note and who filed it.
struct Filing {
    note: Note,
    by: Vec<u8>,
}

struct Scene<'a> {
    random: &'a mut Random,
    calls: Vec<Call>,
    day: u32,
    minute: u32,
    /// Days that most filings are about.
    days: Vec<u32>,
    codes: Vec<Vec<u8>>,
    categories: Vec<Vec<u8>>,
    levels: &'static [u32],
    filings: Vec<Filing>,
}

/// The list of a number: most are ordinary, some fill a table.
pub fn list(random: &mut Random, number: u64) -> Vec<Call> {
    let start = match random.below(5) {
        0 => random.below(LAST_DAY as usize + 1) as u32,
        _ => day_of(*random.pick(&STARTS)).expect("a date") as u32,
    };
    let mut scene = Scene {
        random,
        calls: Vec::new(),
        day: 0,
        minute: 0,
        days: Vec::new(),
        codes: Vec::new(),
        categories: Vec::new(),
        levels: &SMALL,
        filings: Vec::new(),
    };
    match number % 40 {
        3 | 23 => scene.eve(start),
        7 => scene.all_records(start),
        17 => scene.all_loads(start),
        27 => scene.all_enrolled(start),
        37 => scene.weeks_apart(start),
        _ => scene.ordinary(start),
    }
    scene.calls
}

impl Scene<'_> {
    fn ordinary(&mut self, start: u32) {
        if self.random.one_in(4) {
            self.levels = &LARGE;
        }
        let (actors, categories) = (self.random.within(2, 4), self.random.within(1, 2));
        self.begin(start, actors, categories);
        self.load_all();
        if self.random.one_in(2) {
            let (day, minute) = (self.days[0], self.random.below(1300) as u32);
            self.advance(day, minute);
        }
        for _ in 0..self.random.within(20, 60) {
            self.any_call();
        }
    }

    /// More filings than there are places for records; nearly all of them fit. Where two actors file for eight days, each of them has
    /// them all in its history.
    fn all_records(&mut self, start: u32) {
        self.levels = &TINY;
        if self.random.one_in(2) {
            self.begin(start.min(LAST_DAY - 8), 2, 1);
            self.days = (1..=8).map(|i| self.day + i).collect();
        } else {
            self.begin(start.min(LAST_DAY - 3), 3, 1);
        }
        self.lasting_contracts();
        let category = self.categories[0].clone();
        for code in self.codes.clone() {
            for day in self.days.clone() {
                self.load(&code, &category, day, 9999, vec![5000; steps_of(day)]);
            }
        }
        let day = self.days[0];
        for i in 0..330 {
            match self.random.below(40) {
                0 if i > 100 => self.advance(day, self.minute + 7),
                1 => self.question(),
                _ => self.filing(),
            }
        }
    }

    /// Filings for a few days, then for days that are weeks after them.
    fn weeks_apart(&mut self, start: u32) {
        self.begin(start.min(LAST_DAY - 280), 3, 1);
        self.lasting_contracts();
        let (near, weeks) = (self.days.clone(), *self.random.pick(&[28, 63, 64, 121, 128, 256]));
        let far: Vec<u32> = near.iter().map(|day| day + weeks + self.random.below(2) as u32).collect();
        self.days = [near.clone(), far.clone()].concat();
        self.load_all();
        for days in [near, far] {
            let (day, minute) = (days[0] - 1, self.random.below(1440) as u32);
            self.advance(day, minute);
            (self.days, self.filings) = (days, Vec::new());
            for _ in 0..16 {
                self.filing();
            }
            self.question();
        }
    }

    /// Filings and loads for the next days about the last half hour of the clock's, and what becomes of them after midnight.
    fn eve(&mut self, start: u32) {
        let eve = match self.random.below(3) {
            0 => start.min(LAST_DAY - 3),
            _ => day_of(*self.random.pick(&EVES)).expect("a date") as u32,
        };
        let last = 30 * (steps_of(eve) as u32 - 1);
        self.begin_at(eve, 600, 3, 1);
        self.lasting_contracts();
        self.days = vec![eve + 1, eve + 2];
        self.load_all();
        for (day, minute) in [(eve, last - 1), (eve, last), (eve, last + 29), (eve + 1, 0), (eve + 1, 30)] {
            let minute = if self.random.one_in(3) { minute + self.random.below(20) as u32 } else { minute };
            self.advance(day, minute);
            for _ in 0..self.random.within(4, 12) {
                match self.random.below(10) {
                    0 => self.any_load(),
                    1 => self.question(),
                    _ => self.filing(),
                }
            }
        }
    }

    /// More loads than there are places.
    fn all_loads(&mut self, start: u32) {
        self.begin(start.min(LAST_DAY - 12), 8, 4);
        self.days = (0..8).map(|i| self.day + 1 + i).collect();
        let first = self.day + 1;
        for i in 0..68 {
            let (code, category, day) = (i % 8, i / 8 % 3, first + i as u32 / 24);
            let (code, category) = (self.codes[code].clone(), self.categories[category].clone());
            let powers = self.loaded(100, steps_of(day));
            self.load(&code, &category, day, 100, powers);
            if self.random.one_in(8) {
                self.any_load();
            }
        }
        for _ in 0..12 {
            self.any_load();
            self.filing();
        }
    }

    /// More actors and categories than there are places.
    fn all_enrolled(&mut self, start: u32) {
        self.begin(start, 10, 6);
        for _ in 0..10 {
            self.enrolment();
        }
        self.load_all();
        for _ in 0..20 {
            self.any_call();
        }
    }

    fn begin(&mut self, start: u32, actors: usize, categories: usize) {
        let minute = self.random.below(1440) as u32;
        self.begin_at(start, minute, actors, categories);
    }

    /// The clock, the actors and the categories.
    fn begin_at(&mut self, start: u32, minute: u32, actors: usize, categories: usize) {
        self.advance(start, minute);
        self.days =
            [1, self.random.within(1, 2), self.random.within(1, 8)].map(|d| (start + d as u32).min(LAST_DAY)).to_vec();
        for n in 0..actors {
            let contract = match self.random.below(24) {
                0 => (start + 2, start + 4),
                1 => (0, start + 1),
                _ => (start.saturating_sub(3), (start + 20).min(LAST_DAY)),
            };
            self.codes.push(code(n));
            self.calls.push(Call::EnrolActor { code: code(n), first: contract.0, last: contract.1 });
        }
        for category in &CATEGORIES[..categories] {
            self.categories.push(category.to_vec());
            self.calls.push(Call::EnrolCategory { text: category.to_vec() });
        }
    }

    /// Every actor that was named to be enrolled has a contract for all days.
    fn lasting_contracts(&mut self) {
        self.calls.iter_mut().for_each(|call| {
            if let Call::EnrolActor { first, last, .. } = call {
                (*first, *last) = (0, LAST_DAY);
            }
        });
    }

    fn load_all(&mut self) {
        for code in self.codes.clone() {
            for category in self.categories.clone() {
                for day in self.days.clone() {
                    if !self.random.one_in(10) {
                        let approved = self.approved();
                        let powers = self.loaded(approved, steps_of(day));
                        self.load(&code, &category, day, approved, powers);
                    }
                }
            }
        }
    }

    fn approved(&mut self) -> u32 {
        let top = self.levels[self.levels.len() - 1];
        *self.random.pick(&[top, top, top, self.levels[self.levels.len() - 2]])
    }

    /// Powers up to the approved one: all, none or some of it, the same all day or not.
    fn loaded(&mut self, approved: u32, count: usize) -> Vec<u32> {
        let mut level = || match self.random.below(6) {
            0 => 0,
            1 | 2 => approved,
            _ => (*self.random.pick(self.levels)).min(approved),
        };
        let (morning, evening) = (level(), level());
        let turn = if self.random.one_in(3) { self.random.below(count) } else { count };
        (0..count).map(|k| if k < turn { morning } else { evening }).collect()
    }

    fn load(&mut self, actor: &[u8], category: &[u8], day: u32, approved: u32, powers: Vec<u32>) {
        self.calls.push(Call::Load { actor: actor.to_vec(), category: category.to_vec(), day, approved, powers });
    }

    /// Moves the clock, and the scene's own where the call will be accepted.
    fn advance(&mut self, day: u32, minute: u32) {
        self.calls.push(Call::Advance { day, minute });
        let moment = day <= LAST_DAY && (minute as usize) < 30 * steps_of(day);
        if moment && (day, minute) >= (self.day, self.minute) {
            (self.day, self.minute) = (day, minute);
        }
    }

    /// Nearly always one that was named to be enrolled.
    fn actor(&mut self) -> Vec<u8> {
        match self.random.below(60) {
            0 => code(self.codes.len()),
            1 => self.any_text(16),
            _ => self.random.pick(&self.codes).clone(),
        }
    }

    fn category(&mut self) -> Vec<u8> {
        match self.random.below(60) {
            0 => CATEGORIES[5].to_vec(),
            1 => self.any_text(5),
            _ => self.random.pick(&self.categories).clone(),
        }
    }

    fn any_text(&mut self, about: usize) -> Vec<u8> {
        match self.random.below(4) {
            0 => {
                let length = self.random.below(about + 5);
                self.random.bytes(length)
            }
            1 => vec![b'0'; self.random.within(about - 1, about + 1)],
            2 => {
                let mut text = if about == 16 { code(0) } else { CATEGORIES[1].to_vec() };
                let at = self.random.below(text.len());
                text[at] = *self.random.pick(b"aZ-_0 \0;\xff");
                text
            }
            _ => Vec::new(),
        }
    }

    fn any_day(&mut self) -> u32 {
        match self.random.below(12) {
            0 => match self.random.below(3) {
                0 => self.day,
                1 => (self.day + self.random.below(12) as u32).saturating_sub(2),
                _ => self.day + 7 + self.random.below(2) as u32,
            },
            _ => *self.random.pick(&self.days),
        }
    }
}
