//! [`NAME_LENGTH`], [`BODY_LENGTH`] and [`OBJECT_LENGTH`] are enough for every notification and no greater than needed, shown by writing
//! the longest one of every day.
//!
//! A body is a header and a line for each step. A line is two labels, which the step and the count of steps alone decide, and a power
//! of at most four digits; header and name have parts of fixed width, but for the C that a category may end with. So no notification
//! of a day is longer than the one with such a category and powers of 9999 at all steps. An object has the same parts, and origin and
//! moment of a fixed width.

use register::{Category, Day, Moment, Notification, Object, Refusal, BODY_LENGTH, NAME_LENGTH, OBJECT_LENGTH, STEPS};

/// The notification of a day with a category and the same power at every step.
fn notification(day: Day, category: &[u8; 6], power: u16) -> Result<Notification, Refusal> {
    let steps = day.steps().expect("there is such a day") as usize;
    let powers = &[power; STEPS][..steps];
    let (ceder, acquirer) = ("17X100A100R0000L".parse()?, "17X100A100R0001J".parse()?);
    Ok(Notification::new(ceder, acquirer, Category(*category), day, powers))
}

/// Writes it into buffers of these lengths.
fn write(day: Day, category: &[u8; 6], power: u16, name: usize, body: usize) -> Result<(usize, usize), Refusal> {
    let n = notification(day, category, power)?;
    n.write(&mut [0; 2 * NAME_LENGTH][..name], &mut [0; 2 * BODY_LENGTH][..body])
}

/// Writes the object by which its ceder submits it at the end of its day, into a buffer of this length.
fn write_object(day: Day, category: &[u8; 6], power: u16, length: usize) -> Result<usize, Refusal> {
    let notification = notification(day, category, power)?;
    let object = Object { notification, origin: notification.ceder, moment: Moment { day, second: 86_399 } };
    object.write(&mut [0; 2 * OBJECT_LENGTH][..length])
}

#[test]
fn of_every_day() -> Result<(), Refusal> {
    let refused = |number| Err(Refusal { number, place: 0 });
    let (mut names, mut bodies) = (0, 0);
    for day in (Day::FIRST.0..=Day::LAST.0).map(Day) {
        let (name, body) = write(day, b"13120C", 9999, 2 * NAME_LENGTH, 2 * BODY_LENGTH)?;
        assert!(name <= NAME_LENGTH && body <= BODY_LENGTH, "{day}: {name} and {body} bytes");
        assert_eq!(write(day, b"13120C", 9999, NAME_LENGTH, BODY_LENGTH), Ok((name, body)), "{day}");
        if name == NAME_LENGTH {
            names += 1;
            assert_eq!(write(day, b"13120C", 9999, NAME_LENGTH - 1, BODY_LENGTH), refused(36), "{day}");
        }
        if body == BODY_LENGTH {
            bodies += 1;
            assert_eq!(write(day, b"13120C", 9999, NAME_LENGTH, BODY_LENGTH - 1), refused(36), "{day}");
        }
        // A category without C has one byte less in both, and no power has five digits.
        assert_eq!(write(day, b"13120\0", 9999, NAME_LENGTH, BODY_LENGTH), Ok((name - 1, body - 1)), "{day}");
        assert_eq!(write(day, b"13120C", 10_000, NAME_LENGTH, BODY_LENGTH), refused(10), "{day}");
    }
    assert!(names > 0 && bodies > 0, "{names} names and {bodies} bodies are as long as said");
    Ok(())
}

#[test]
fn object_of_every_day() -> Result<(), Refusal> {
    let refused = |number| Err(Refusal { number, place: 0 });
    let mut objects = 0;
    for day in (Day::FIRST.0..=Day::LAST.0).map(Day) {
        let length = write_object(day, b"13120C", 9999, 2 * OBJECT_LENGTH)?;
        assert!(length <= OBJECT_LENGTH, "{day}: {length} bytes");
        assert_eq!(write_object(day, b"13120C", 9999, OBJECT_LENGTH), Ok(length), "{day}");
        if length == OBJECT_LENGTH {
            objects += 1;
            assert_eq!(write_object(day, b"13120C", 9999, OBJECT_LENGTH - 1), refused(36), "{day}");
        }
        assert_eq!(write_object(day, b"13120\0", 9999, OBJECT_LENGTH), Ok(length - 1), "{day}");
        assert_eq!(write_object(day, b"13120C", 10_000, OBJECT_LENGTH), refused(10), "{day}");
    }
    assert!(objects > 0, "{objects} objects are as long as said");
    Ok(())
}
