//! The reserve exchange register for Rust: a safe face over the proved static library `register_c`.
//!
//! A [`Register`] holds everything itself, in about 36 KB and without a heap. Each call answers a result or one [`Refusal`] of
//! document 01 or 02, and a refused call changes nothing. What the calls do is proved; this package only passes arguments and answers on.
//!
//! Codes, categories, names and bodies are any bytes: the calls judge their form, so `&str`, `&[u8]`, [`Code`] and [`Category`] all
//! serve.
//!
//! # Example
//!
//! Two actors exchange 40 MW of one category on the day after the clock's. The exchange moves power when both have filed it.
//!
//! ```
//! use register::{Day, Filed, Notification, Refusal, Register, Status, BODY_LENGTH, NAME_LENGTH};
//!
//! let (north, south) = ("17X100A100R0000L", "17X100A100R0001J");
//! let (today, tomorrow) = (Day::of("20210120").unwrap(), Day::of("20210121").unwrap());
//!
//! let mut register = Register::new();
//! register.advance(today, 600)?;
//! register.enrol_actor(north, today, tomorrow)?;
//! register.enrol_actor(south, today, tomorrow)?;
//! register.enrol_category("13120")?;
//! register.load(north, "13120", tomorrow, 100, &[60; 48])?;
//! register.load(south, "13120", tomorrow, 100, &[0; 48])?;
//!
//! let exchange = Notification::new(north.parse()?, south.parse()?, "13120".parse()?, tomorrow, &[40; 48]);
//! let (mut name, mut body) = ([0; NAME_LENGTH], [0; BODY_LENGTH]);
//! let (name_length, body_length) = exchange.write(&mut name, &mut body)?;
//! let (name, body) = (&name[..name_length], &body[..body_length]);
//! assert_eq!(name, b"NER_17X100A100R0000L_17X100A100R0001J_20210121_13120.csv");
//!
//! assert_eq!(register.file(north, name, body)?, Filed { id: 1, status: Status::Created, from: 0 });
//! assert_eq!(register.engagement(south, "13120", tomorrow, 0)?, 0);
//! assert_eq!(register.file(south, name, body)?, Filed { id: 2, status: Status::Validated, from: 0 });
//! assert_eq!(register.engagement(north, "13120", tomorrow, 0)?, 20);
//! assert_eq!(register.engagement(south, "13120", tomorrow, 0)?, 40);
//!
//! let record = register.record(south, 1)?;
//! assert_eq!((record.status, record.from, record.until), (Status::Answered, 0, 48));
//! let mut ids = [0; 256];
//! let count = register.history(north, &mut ids)?;
//! assert_eq!(&ids[..count], [1, 2]);
//!
//! let refused = register.advance(today, 599).unwrap_err();
//! assert_eq!(refused, Refusal { number: 38, place: 0 });
//! assert_eq!(refused.to_string(), "refusal 38: the clock would go back");
//! # Ok::<(), Refusal>(())
//! ```
#![no_std]
#![deny(missing_docs, unsafe_code)]

#[cfg(feature = "std")]
extern crate std;

mod day;
#[doc(hidden)] // for the benchmarks, which measure the library's own functions and structs
pub mod ffi;
mod notification;
mod object;
mod pieces;
mod record;
mod refusal;

use core::fmt;

pub use day::{Day, NoDate};
pub use notification::{Category, Code, Notification, BODY_LENGTH, NAME_LENGTH, STEPS};
pub use object::{Moment, Object, OBJECT_LENGTH};
pub use pieces::FileReader;
pub use record::{Filed, Record, Status};
pub use refusal::Refusal;

impl Refusal {
    #[inline]
    fn unless_accepted(number: u32, place: u32) -> Result<(), Refusal> {
        match number {
            0 => Ok(()),
            _ => Err(Refusal { number, place }),
        }
    }
}

impl ffi::Said {
    /// The values, or the refusal.
    #[inline]
    fn accepted(&self) -> Result<[u32; 3], Refusal> {
        Refusal::unless_accepted(self.number, self.place)?;
        Ok(self.values)
    }
}

/// A register: its clock, 8 places for actors, 4 for categories, 64 for loads, 256 for records.
///
/// Two registers are equal if they hold the same, as they do after the same calls. A clone is a register of its own.
#[derive(Clone, PartialEq, Eq)]
pub struct Register(ffi::State);

/// The clock and how much there is of everything.
impl fmt::Debug for Register {
    fn fmt(&self, f: &mut fmt::Formatter<'_>) -> fmt::Result {
        let ffi::Head { clock, actors, categories, loads, records } = &self.0.head;
        f.debug_struct("Register")
            .field("day", &Day(clock.day))
            .field("minute", &clock.minute)
            .field("actors", &actors.count)
            .field("categories", &categories.count)
            .field("loads", loads)
            .field("records", records)
            .finish()
    }
}

impl Default for Register {
    fn default() -> Self {
        Register::new()
    }
}

impl Register {
    /// A fresh register: nothing is enrolled, loaded or filed, and the clock stands at day 0, minute 0.
    pub fn new() -> Register {
        let ffi::Fresh { head, statuses, ids } = ffi::register_head_fresh();
        Register(ffi::State {
            head,
            statuses,
            ids,
            keys: [0; 256],
            marks: [[0; 4]; 256],
            rows: [[0; STEPS]; 256],
            numbers: [0; 64],
            approved: [0; 64],
            loads: [[0; STEPS]; 64],
        })
    }

    /// Keeps the head that a call leaves, and gives what it says.
    #[inline]
    fn keep(&mut self, turn: &ffi::Turn) -> Result<[u32; 3], Refusal> {
        self.0.head = turn.head;
        turn.said.accepted()
    }

    /// Moves the clock to a day and an elapsed minute; the same moment is accepted. Refused by 10 and 38.
    pub fn advance(&mut self, day: Day, minute: u32) -> Result<(), Refusal> {
        let turn = ffi::register_head_advance(self.0.head, day.0, minute);
        self.keep(&turn).map(|_| ())
    }

    /// Enrols an actor by its EIC code, with a contract from a first to a last day, both included, and gives how many actors there now
    /// are. Refused by 9, 10, 37 and 36.
    pub fn enrol_actor(&mut self, code: impl AsRef<[u8]>, first: Day, last: Day) -> Result<u32, Refusal> {
        let turn = ffi::enrol_actor(&self.0, code.as_ref(), first.0, last.0);
        self.keep(&turn).map(|values| values[0])
    }

    /// Enrols a category and gives how many categories there now are. Refused by 9, 37 and 36.
    pub fn enrol_category(&mut self, category: impl AsRef<[u8]>) -> Result<u32, Refusal> {
        let turn = ffi::enrol_category(&self.0, category.as_ref());
        self.keep(&turn).map(|values| values[0])
    }

    /// Gives one actor, category and day an approved power and one loaded power for each step, none above the approved one; answers how
    /// many loads there now are. Refused by 10, 22, 23, 39, 37 and 36. A day can be loaded if it is after the clock's and all of it still
    /// counts: 39 refuses the next day in the last half hour of the clock's.
    pub fn load(
        &mut self, actor: impl AsRef<[u8]>, category: impl AsRef<[u8]>, day: Day, approved: u32, powers: &[u32],
    ) -> Result<u32, Refusal> {
        let (actor, category) = (actor.as_ref(), category.as_ref());
        let turn = ffi::load(&mut self.0, actor, category, day.0, approved, powers);
        self.keep(&turn).map(|values| values[0])
    }

    /// Files a notification: the submitter's code, the file's name and its body. An accepted filing makes one record. Refused by 1 to 8,
    /// then 20 to 36.
    ///
    /// A filing is about the steps of its day that still count: of the clock's day those from the second after the one that runs, of the
    /// next day all, but in the last half hour before it all except step 0, of later days all.
    ///
    /// ```
    /// # use register::{Day, Notification, Refusal, Register, Status, BODY_LENGTH, NAME_LENGTH};
    /// # let (north, south) = ("17X100A100R0000L", "17X100A100R0001J");
    /// # let today = Day::of("20210120").unwrap();
    /// # let tomorrow = Day(today.0 + 1);
    /// # let mut register = Register::new();
    /// # register.enrol_actor(north, today, tomorrow)?;
    /// # register.enrol_actor(south, today, tomorrow)?;
    /// # register.enrol_category("13120")?;
    /// # register.load(north, "13120", tomorrow, 100, &[60; 48])?;
    /// # register.load(south, "13120", tomorrow, 100, &[0; 48])?;
    /// // Both file 40 MW for tomorrow, and in the last half hour of today they replace it by 31 MW.
    /// for (minute, power, first) in [(1409, 40, 0), (1410, 31, 1)] {
    ///     register.advance(today, minute)?;
    ///     let exchange = Notification::new(north.parse()?, south.parse()?, "13120".parse()?, tomorrow, &[power; 48]);
    ///     // ... written
    /// #   let (mut name, mut body) = ([0; NAME_LENGTH], [0; BODY_LENGTH]);
    /// #   let (a, b) = exchange.write(&mut name, &mut body)?;
    /// #   let (name, body) = (&name[..a], &body[..b]);
    ///     for actor in [north, south] {
    ///         assert_eq!(register.file(actor, name, body)?.from, first);
    ///     }
    /// }
    /// let updated = register.record(south, 2)?;
    /// assert_eq!((updated.status, updated.from, updated.until), (Status::Updated, 0, 1));
    /// register.advance(tomorrow, 0)?;
    /// assert_eq!(register.engagement(south, "13120", tomorrow, 0)?, 40);
    /// assert_eq!(register.engagement(south, "13120", tomorrow, 1)?, 31);
    /// # Ok::<(), Refusal>(())
    /// ```
    pub fn file(
        &mut self, submitter: impl AsRef<[u8]>, name: impl AsRef<[u8]>, body: impl AsRef<[u8]>,
    ) -> Result<Filed, Refusal> {
        let (submitter, name, body) = (submitter.as_ref(), name.as_ref(), body.as_ref());
        let turn = ffi::file(&mut self.0, submitter, name, body);
        self.filed(&turn)
    }

    /// Files a notification by the machine interface: the submitter's code and the object of a request. It meets the same ledger as a
    /// [file](Self::file) does. Refused by 42, 5 to 8, 43, then 20 to 36.
    ///
    /// ```
    /// # use register::{Day, Filed, Moment, Notification, Object, Refusal, Register, Status};
    /// # use register::{BODY_LENGTH, NAME_LENGTH, OBJECT_LENGTH};
    /// # let (north, south) = ("17X100A100R0000L", "17X100A100R0001J");
    /// # let today = Day::of("20210120").unwrap();
    /// # let tomorrow = Day(today.0 + 1);
    /// # let mut register = Register::new();
    /// # register.advance(today, 600)?;
    /// # register.enrol_actor(north, today, tomorrow)?;
    /// # register.enrol_actor(south, today, tomorrow)?;
    /// # register.enrol_category("13120")?;
    /// # register.load(north, "13120", tomorrow, 100, &[60; 48])?;
    /// # register.load(south, "13120", tomorrow, 100, &[0; 48])?;
    /// // North files an exchange as a file, and south answers it by an object.
    /// let exchange = Notification::new(north.parse()?, south.parse()?, "13120".parse()?, tomorrow, &[40; 48]);
    /// let (mut name, mut body) = ([0; NAME_LENGTH], [0; BODY_LENGTH]);
    /// let (a, b) = exchange.write(&mut name, &mut body)?;
    /// assert_eq!(register.file(north, &name[..a], &body[..b])?, Filed { id: 1, status: Status::Created, from: 0 });
    ///
    /// let moment = Moment { day: today, second: 36_000 };
    /// let object = Object { notification: exchange, origin: south.parse()?, moment };
    /// let mut buffer = [0; OBJECT_LENGTH];
    /// let length = object.write(&mut buffer)?;
    /// let object = &buffer[..length];
    /// assert_eq!(register.file_object(north, object), Err(Refusal { number: 43, place: 0 }));
    /// assert_eq!(register.file_object(south, object)?, Filed { id: 2, status: Status::Validated, from: 0 });
    /// assert_eq!(register.engagement(south, "13120", tomorrow, 0)?, 40);
    /// # Ok::<(), Refusal>(())
    /// ```
    pub fn file_object(&mut self, submitter: impl AsRef<[u8]>, body: impl AsRef<[u8]>) -> Result<Filed, Refusal> {
        let turn = ffi::file_object(&mut self.0, submitter.as_ref(), body.as_ref());
        self.filed(&turn)
    }

    /// Keeps the head that a filing leaves, and gives what it says.
    #[inline]
    fn filed(&mut self, turn: &ffi::Turn) -> Result<Filed, Refusal> {
        let [id, letter, from] = self.keep(turn)?;
        Ok(Filed { id, status: Status::known(letter), from })
    }

    /// An actor's own engagement at a step, in MW: loaded power, plus what it acquires, less what it cedes. Refused by 22, 23 and 10.
    pub fn engagement(
        &self, actor: impl AsRef<[u8]>, category: impl AsRef<[u8]>, day: Day, step: u32,
    ) -> Result<u32, Refusal> {
        let (actor, category) = (actor.as_ref(), category.as_ref());
        let said = ffi::engagement(&self.0, actor, category, day.0, step);
        said.accepted().map(|values| values[0])
    }

    /// A record by its id, for an actor who is ceder or acquirer of it. Refused by 22, 40 and 41.
    pub fn record(&self, asker: impl AsRef<[u8]>, id: u32) -> Result<Record, Refusal> {
        let shown = ffi::record(&self.0, asker.as_ref(), id);
        Refusal::unless_accepted(shown.number, shown.place)?;
        let notification = Notification {
            ceder: Code(shown.ceder),
            acquirer: Code(shown.acquirer),
            category: Category(shown.category),
            day: Day(shown.day),
            steps: shown.steps,
            powers: shown.powers,
        };
        let (submitter, status) = (Code(shown.submitter), Status::known(shown.status.into()));
        Ok(Record { submitter, notification, status, from: shown.from, until: shown.until })
    }

    /// Puts the ids of all records of which the actor is ceder or acquirer into the lent buffer and gives how many they are. They run by
    /// day, earliest first, and within a day by id, lowest first; each comes once. The rest of the buffer, and all of it beside a refusal,
    /// is left as it was. Refused by 22 and 36; a buffer of 256 is enough.
    ///
    /// ```
    /// # use register::{Day, Notification, Refusal, Register, BODY_LENGTH, NAME_LENGTH};
    /// # let (north, south) = ("17X100A100R0000L", "17X100A100R0001J");
    /// # let today = Day::of("20210120").unwrap();
    /// let (tomorrow, the_day_after) = (Day(today.0 + 1), Day(today.0 + 2));
    /// # let mut register = Register::new();
    /// # register.advance(today, 600)?;
    /// # register.enrol_actor(north, today, the_day_after)?;
    /// # register.enrol_actor(south, today, the_day_after)?;
    /// # register.enrol_category("13120")?;
    /// # for day in [tomorrow, the_day_after] {
    /// #     register.load(north, "13120", day, 100, &[60; 48])?;
    /// #     register.load(south, "13120", day, 100, &[0; 48])?;
    /// # }
    /// // North files for the day after tomorrow, then twice for tomorrow.
    /// for day in [the_day_after, tomorrow, tomorrow] {
    ///     let exchange = Notification::new(north.parse()?, south.parse()?, "13120".parse()?, day, &[40; 48]);
    ///     // ... written and filed
    /// #   let (mut name, mut body) = ([0; NAME_LENGTH], [0; BODY_LENGTH]);
    /// #   let (a, b) = exchange.write(&mut name, &mut body)?;
    /// #   register.file(north, &name[..a], &body[..b])?;
    /// }
    /// let mut ids = [0; 4];
    /// assert_eq!(register.history(south, &mut ids), Ok(3));
    /// assert_eq!(ids, [2, 3, 1, 0]);
    /// assert_eq!(register.history(south, &mut ids[..2]), Err(Refusal { number: 36, place: 0 }));
    /// # Ok::<(), Refusal>(())
    /// ```
    pub fn history(&self, actor: impl AsRef<[u8]>, ids: &mut [u32]) -> Result<usize, Refusal> {
        let said = ffi::history(&self.0, actor.as_ref(), ids);
        said.accepted().map(|values| values[0] as usize)
    }
}
