//! Days.

use core::error::Error;
use core::fmt;
use core::str::{from_utf8, FromStr};

use crate::ffi;

/// A day by its number, which counts from 0 for 20000101 to 36524 for 20991231. A greater number is no day: calls refuse it by 10.
///
/// ```
/// use register::Day;
///
/// let day: Day = "20210328".parse()?;
/// assert_eq!((day, day.steps(), day.to_string()), (Day(7757), Some(46), "20210328".to_string()));
/// assert!("20210229".parse::<Day>().is_err());
/// # Ok::<(), register::NoDate>(())
/// ```
#[derive(Clone, Copy, Debug, PartialEq, Eq, PartialOrd, Ord, Hash)]
pub struct Day(pub u32);

impl Day {
    /// 20000101.
    pub const FIRST: Day = Day(0);
    /// 20991231.
    pub const LAST: Day = Day(36_524);

    /// The day of eight digits, year month day, if they are a date from 20000101 to 20991231.
    pub fn of(date: impl AsRef<[u8]>) -> Option<Day> {
        Some(Day(ffi::day_of(date.as_ref()))).filter(|day| *day <= Day::LAST)
    }

    /// The eight digits, if there is such a day.
    pub fn date(self) -> Option<[u8; 8]> {
        (self <= Day::LAST).then(|| ffi::calendar_date(self.0).digits)
    }

    /// How many steps the day has: 46 on a short day, 50 on a long one, else 48, if there is such a day.
    pub fn steps(self) -> Option<u32> {
        Some(ffi::calendar_steps(self.0)).filter(|steps| *steps > 0)
    }
}

impl FromStr for Day {
    type Err = NoDate;

    fn from_str(date: &str) -> Result<Day, NoDate> {
        Day::of(date).ok_or(NoDate)
    }
}

/// The eight digits, or the number where there is no such day.
impl fmt::Display for Day {
    fn fmt(&self, f: &mut fmt::Formatter<'_>) -> fmt::Result {
        match self.date() {
            Some(date) => f.write_str(from_utf8(&date).unwrap_or_default()),
            None => write!(f, "day {}", self.0),
        }
    }
}

/// A text that is no date from 20000101 to 20991231.
#[derive(Clone, Copy, Debug, PartialEq, Eq, Hash)]
pub struct NoDate;

impl fmt::Display for NoDate {
    fn fmt(&self, f: &mut fmt::Formatter<'_>) -> fmt::Result {
        f.write_str("the text isn't a date of eight digits from 20000101 to 20991231")
    }
}

impl Error for NoDate {}
