//! The object of a request and its parts (document 02, K3).

use crate::notification::{flat, read_in};
use crate::{ffi, Code, Day, Notification, Refusal};

/// A buffer of this length takes every object that is written.
pub const OBJECT_LENGTH: usize = 2737;

/// The moment of a submission: a day and a second of it. Numbers that are no moment can stand here; the writer refuses them.
#[derive(Clone, Copy, Debug, PartialEq, Eq, PartialOrd, Ord, Hash)]
pub struct Moment {
    /// The day.
    pub day: Day,
    /// The second of the day, from 0 to 86,399.
    pub second: u32,
}

/// What the object of a request says: a notification, who sends it and when.
///
/// ```
/// use register::{Day, Moment, Notification, Object, Refusal, OBJECT_LENGTH};
///
/// let (north, south) = ("17X100A100R0000L".parse()?, "17X100A100R0001J".parse()?);
/// let (today, tomorrow) = (Day::of("20210120").unwrap(), Day::of("20210121").unwrap());
/// let notification = Notification::new(north, south, "13120".parse()?, tomorrow, &[40; 48]);
/// let object = Object { notification, origin: south, moment: Moment { day: today, second: 36_000 } };
///
/// let mut buffer = [0; OBJECT_LENGTH];
/// let length = object.write(&mut buffer)?;
/// let text = core::str::from_utf8(&buffer[..length]).unwrap();
/// assert!(text.starts_with(r#"{"CodeEicActeurCedant":"17X100A100R0000L","CodeEicActeurAcquereur":"#));
/// assert!(text.contains(r#""DateSoumission":"2021-01-20T10:00:00Z","Statut":"C","Chronique":[{"Debut":"00h00","#));
/// assert!(text.ends_with(r#"{"Debut":"23h30","Fin":"00h00","Puissance":40}]}"#));
///
/// // Blanks, tabs, CR and LF may stand between the tokens. The place of a wrong label or power is the step, from 1.
/// assert_eq!(Object::read(text), Ok(object));
/// assert_eq!(Object::read(text.replace(",", " ,\r\n\t")), Ok(object));
/// assert_eq!(Object::read(text.replace("\"01h00\"", "\"1h00\"")), Err(Refusal { number: 6, place: 2 }));
/// assert_eq!(Object::read(text.replace("Statut", "Status")), Err(Refusal { number: 42, place: 0 }));
/// # Ok::<(), Refusal>(())
/// ```
#[derive(Clone, Copy, Debug, PartialEq, Eq)]
pub struct Object {
    /// The key and the powers.
    pub notification: Notification,
    /// The actor that submits the notification.
    pub origin: Code,
    /// When it was submitted. The register doesn't use it.
    pub moment: Moment,
}

impl Object {
    /// Reads an object, or refuses it by 42, then 5 to 8.
    pub fn read(body: impl AsRef<[u8]>) -> Result<Object, Refusal> {
        let ffi::ObjectRead { read, day, second, origin } = ffi::read_object(body.as_ref());
        Ok(Object { notification: read_in(read)?, origin: Code(origin), moment: Moment { day: Day(day), second } })
    }

    /// Puts the object, without blanks, into the lent buffer and gives its length, or refuses by 9, 10, 8 or 36. What the buffer holds
    /// past this length, and all of it beside a refusal, is left as it was. [`OBJECT_LENGTH`] is enough.
    pub fn write(&self, buffer: &mut [u8]) -> Result<usize, Refusal> {
        let Object { notification, origin, moment } = self;
        let (read, origin) = (flat(notification), origin.0);
        let object = ffi::ObjectRead { read, day: moment.day.0, second: moment.second, origin };
        let written = ffi::write_object(object, buffer);
        Refusal::unless_accepted(written.number, written.place)?;
        Ok(written.length)
    }
}
