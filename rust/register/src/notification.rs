//! The notification file and its parts.

use core::fmt::{self, Write};
use core::str::FromStr;

use crate::{ffi, Day, Refusal};

/// How many powers a notification holds: the steps of a long day.
pub const STEPS: usize = 50;
/// A buffer of this length takes every name.
pub const NAME_LENGTH: usize = 57;
/// A buffer of this length takes every body that is written.
pub const BODY_LENGTH: usize = 967;

const WRONG_FORM: Refusal = Refusal { number: 9, place: 0 };

fn put(text: &[u8], f: &mut fmt::Formatter<'_>) -> fmt::Result {
    text.iter().try_for_each(|byte| f.write_char(*byte as char))
}

/// An actor's EIC code: sixteen of A to Z, 0 to 9 and hyphen. Other bytes can stand here; the calls refuse them.
#[derive(Clone, Copy, PartialEq, Eq, PartialOrd, Ord, Hash)]
pub struct Code(pub [u8; 16]);

/// A category: five digits, perhaps followed by C; six bytes, of which the last is 0 where there is no C. Other bytes can stand
/// here; the calls refuse them.
#[derive(Clone, Copy, PartialEq, Eq, PartialOrd, Ord, Hash)]
pub struct Category(pub [u8; 6]);

impl AsRef<[u8]> for Code {
    fn as_ref(&self) -> &[u8] {
        &self.0
    }
}

/// The text, without the last byte where that is 0.
impl AsRef<[u8]> for Category {
    fn as_ref(&self) -> &[u8] {
        self.0.strip_suffix(&[0]).unwrap_or(&self.0)
    }
}

/// Any text of 16 bytes; another length is refused by 9.
impl FromStr for Code {
    type Err = Refusal;

    fn from_str(text: &str) -> Result<Code, Refusal> {
        text.as_bytes().try_into().map(Code).map_err(|_| WRONG_FORM)
    }
}

/// Any text of 5 bytes, or of 6 of which the last isn't 0, since that 0 stands for no text; all others are refused by 9.
impl FromStr for Category {
    type Err = Refusal;

    fn from_str(text: &str) -> Result<Category, Refusal> {
        match *text.as_bytes() {
            [a, b, c, d, e] => Ok(Category([a, b, c, d, e, 0])),
            [a, b, c, d, e, f] if f != 0 => Ok(Category([a, b, c, d, e, f])),
            _ => Err(WRONG_FORM),
        }
    }
}

impl fmt::Display for Code {
    fn fmt(&self, f: &mut fmt::Formatter<'_>) -> fmt::Result {
        put(self.as_ref(), f)
    }
}

impl fmt::Display for Category {
    fn fmt(&self, f: &mut fmt::Formatter<'_>) -> fmt::Result {
        put(self.as_ref(), f)
    }
}

impl fmt::Debug for Code {
    fn fmt(&self, f: &mut fmt::Formatter<'_>) -> fmt::Result {
        write!(f, "Code({self})")
    }
}

impl fmt::Debug for Category {
    fn fmt(&self, f: &mut fmt::Formatter<'_>) -> fmt::Result {
        write!(f, "Category({self})")
    }
}

/// A length as a count of steps. One that has no place in 32 bits is the greatest count: too many steps as well.
fn count(length: usize) -> u32 {
    u32::try_from(length).unwrap_or(u32::MAX)
}

/// What a notification says, in either form: a key and a power in MW for each step of its day.
#[derive(Clone, Copy, Debug, PartialEq, Eq)]
pub struct Notification {
    /// The actor that gives.
    pub ceder: Code,
    /// The actor that takes.
    pub acquirer: Code,
    /// The category of reserve.
    pub category: Category,
    /// The day of the exchange.
    pub day: Day,
    /// How many of the powers are in use: as many as the day has steps.
    pub steps: u32,
    /// The powers, 0 past the day's steps.
    pub powers: [u16; STEPS],
}

impl Notification {
    /// A notification of one power for each step. Nothing is judged here: a wrong count of powers is refused by [`write`](Self::write).
    pub fn new(ceder: Code, acquirer: Code, category: Category, day: Day, powers: &[u16]) -> Notification {
        let mut all = [0; STEPS];
        all.iter_mut().zip(powers).for_each(|(to, power)| *to = *power);
        Notification { ceder, acquirer, category, day, steps: count(powers.len()), powers: all }
    }

    /// The powers of the day's steps.
    pub fn powers(&self) -> &[u16] {
        &self.powers[..STEPS.min(self.steps as usize)]
    }

    /// Reads a file, or refuses it by 1 to 8.
    pub fn read(name: impl AsRef<[u8]>, body: impl AsRef<[u8]>) -> Result<Notification, Refusal> {
        read_in(ffi::read(name.as_ref(), body.as_ref()))
    }

    /// Puts the file's name and body into the two lent buffers and gives their lengths, or refuses by 9, 10, 8 or 36. What the buffers
    /// hold past these lengths, and all of it beside a refusal, is left as it was. [`NAME_LENGTH`] and [`BODY_LENGTH`] are enough.
    pub fn write(&self, name: &mut [u8], body: &mut [u8]) -> Result<(usize, usize), Refusal> {
        let written = ffi::write(flat(self), name, body);
        Refusal::unless_accepted(written.number, written.place)?;
        Ok((written.name, written.body))
    }
}

/// The notification that was read, or the refusal.
pub(crate) fn read_in(read: ffi::FileRead) -> Result<Notification, Refusal> {
    Refusal::unless_accepted(read.number, read.place)?;
    Ok(Notification {
        ceder: Code(read.ceder),
        acquirer: Code(read.acquirer),
        category: Category(read.category),
        day: Day(read.day),
        steps: read.steps,
        powers: read.powers,
    })
}

/// A notification to write as the library takes it.
pub(crate) fn flat(n: &Notification) -> ffi::FileRead {
    ffi::FileRead {
        number: 0,
        place: 0,
        day: n.day.0,
        steps: n.steps,
        powers: n.powers,
        ceder: n.ceder.0,
        acquirer: n.acquirer.0,
        category: n.category.0,
    }
}

#[cfg(test)]
mod tests {
    use super::count;

    #[test]
    fn no_count_is_cut_to_its_last_32_bits() {
        assert_eq!([0, 46, 50, 51].map(count), [0, 46, 50, 51]);
        assert_eq!(count(u32::MAX as usize), u32::MAX);
        for cut in [0, 46, 48, 50, 51] {
            assert_eq!(count((1 << 32) + cut), u32::MAX);
            assert_eq!(count((1 << 63) + cut), u32::MAX);
        }
        assert_eq!(count(usize::MAX), u32::MAX);
    }
}
