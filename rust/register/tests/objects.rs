//! The object of a request: each of its refusals with its place, what a refused one gives, and buffers of every length.

use register::ffi;
use register::{
    Code, Day, Moment, Notification, Object, Refusal, Register, Status, BODY_LENGTH, NAME_LENGTH, OBJECT_LENGTH,
};

const NORTH: &str = "17X100A100R0000L";
const SOUTH: &str = "17X100A100R0001J";
const EVE: Day = Day(7973);
/// 20211031, of 50 steps.
const LONG: Day = Day(7974);

fn refused<T>(number: u32, place: u32) -> Result<T, Refusal> {
    Err(Refusal { number, place })
}

fn exchange(power: u16) -> Result<Notification, Refusal> {
    Ok(Notification::new(NORTH.parse()?, SOUTH.parse()?, "13120C".parse()?, LONG, &[power; 50]))
}

fn object(power: u16, origin: &str) -> Result<Object, Refusal> {
    Ok(Object { notification: exchange(power)?, origin: origin.parse()?, moment: Moment { day: EVE, second: 86_399 } })
}

fn text(power: u16, origin: &str) -> Result<String, Refusal> {
    let mut buffer = [0; OBJECT_LENGTH];
    let length = object(power, origin)?.write(&mut buffer)?;
    Ok(String::from_utf8(buffer[..length].to_vec()).expect("an object is ASCII"))
}

/// Texts that are refused, with number and place.
fn wrong() -> Result<Vec<(String, u32, u32)>, Refusal> {
    let text = text(40, SOUTH)?;
    let last = r#",{"Debut":"23h30","Fin":"00h00","Puissance":40}"#;
    let first = r#""Fin":"00h30","Puissance":40"#;
    Ok(vec![
        (String::new(), 42, 0),
        (text.replace("\"C\"", "\"V\""), 42, 0),
        (text.replace("2021-10-31T00:00:00Z", "2021-10-31T00:00:01Z"), 42, 0),
        (text.replace("2021-10-30T23:59:59Z", "2021-10-30T24:00:00Z"), 42, 0),
        (text.replace("]}", "],}"), 42, 0),
        (text.replace("Debut", "debut"), 42, 0),
        (text.clone() + &" ".repeat(8193 - text.len()), 42, 0),
        (text.replace(last, ""), 5, 0),
        (text.replace(last, &last.repeat(2)), 5, 0),
        (text.replace(first, r#""Fin":"00h31","Puissance":07"#), 6, 1),
        (text.replace(first, r#""Fin":"00h30","Puissance":10000"#), 7, 1),
        (text.replace("\"23h30\",\"Fin\":\"00h00\"", "\"23h30\",\"Fin\":\"24h00\""), 6, 50),
        (text.replace("40}]}", "040}]}"), 7, 50),
        (text.replace(":40", ":0"), 8, 0),
    ])
}

#[test]
fn has_its_refusals() -> Result<(), Refusal> {
    for (text, number, place) in wrong()? {
        assert_eq!(Object::read(&text), refused(number, place), "{text}");
        let mut register = Register::new();
        assert_eq!(register.file_object(NORTH, &text), refused(number, place), "{text}");
        assert!(register == Register::new(), "{text}");
    }
    let text = text(40, SOUTH)?;
    assert_eq!(Object::read(text.clone() + &" ".repeat(8192 - text.len())), object(40, SOUTH));
    // The origin is compared before anyone is looked for.
    assert_eq!(Register::new().file_object(NORTH, &text), refused(43, 0));
    assert_eq!(Register::new().file_object(&SOUTH[..15], &text), refused(43, 0));
    assert_eq!(Register::new().file_object(SOUTH, &text), refused(20, 0));
    Ok(())
}

#[test]
fn is_all_zeros_beside_a_refusal() -> Result<(), Refusal> {
    for (text, number, place) in wrong()? {
        let ffi::ObjectRead { read, day, second, origin } = ffi::read_object(text.as_bytes());
        assert_eq!((read.number, read.place, read.day, read.steps), (number, place, 0, 0), "{text}");
        assert_eq!((read.powers, read.ceder, read.acquirer, read.category), ([0; 50], [0; 16], [0; 16], [0; 6]));
        assert_eq!((day, second, origin), (0, 0, [0; 16]), "{text}");
    }
    Ok(())
}

#[test]
fn leaves_the_rest_of_its_buffer() -> Result<(), Refusal> {
    let (object, text) = (object(40, SOUTH)?, text(40, SOUTH)?);
    for length in 0..text.len() + 3 {
        let mut buffer = vec![b'#'; length];
        let answer = object.write(&mut buffer);
        if length < text.len() {
            assert_eq!((answer, buffer), (refused(36, 0), vec![b'#'; length]));
        } else {
            assert_eq!(answer, Ok(text.len()));
            assert_eq!(buffer, [text.as_bytes(), &vec![b'#'; length - text.len()]].concat());
        }
    }
    let mut buffer = [b'#'; OBJECT_LENGTH];
    let other = |day, second| Object { moment: Moment { day, second }, ..object };
    assert_eq!(Object { origin: Code(*b"17X100A100R0001j"), ..other(EVE, 86_400) }.write(&mut buffer), refused(9, 0));
    assert_eq!(other(EVE, 86_400).write(&mut buffer), refused(10, 0));
    assert_eq!(other(Day(Day::LAST.0 + 1), 0).write(&mut buffer), refused(10, 0));
    assert_eq!(Object { notification: exchange(0)?, ..object }.write(&mut []), refused(8, 0));
    assert_eq!(buffer, [b'#'; OBJECT_LENGTH]);
    Ok(())
}

/// The other party's file is answered by an object, and its object by a file.
#[test]
fn meets_the_same_ledger() -> Result<(), Refusal> {
    let mut register = Register::new();
    register.advance(EVE, 600)?;
    register.enrol_category("13120C")?;
    for actor in [NORTH, SOUTH] {
        register.enrol_actor(actor, EVE, LONG)?;
        register.load(actor, "13120C", LONG, 100, &[50; 50])?;
    }
    for (power, by_object) in [(40, SOUTH), (41, NORTH)] {
        let (mut name, mut body) = ([0; NAME_LENGTH], [0; BODY_LENGTH]);
        let (a, b) = exchange(power)?.write(&mut name, &mut body)?;
        let text = text(power, by_object)?;
        let filed = if by_object == SOUTH {
            [register.file(NORTH, &name[..a], &body[..b])?, register.file_object(SOUTH, &text)?]
        } else {
            [register.file_object(NORTH, &text)?, register.file(SOUTH, &name[..a], &body[..b])?]
        };
        assert_eq!(filed.map(|filed| filed.status), [Status::Created, Status::Validated]);
        let engagements = [NORTH, SOUTH].map(|actor| register.engagement(actor, "13120C", LONG, 49));
        assert_eq!(engagements, [Ok(50 - power as u32), Ok(50 + power as u32)]);
    }
    Ok(())
}
