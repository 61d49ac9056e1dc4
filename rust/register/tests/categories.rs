//! A text whose sixth byte is 0 isn't the category of its first five, by whatever way it comes.

use register::{Category, Code, Day, Notification, Refusal, Register, BODY_LENGTH, NAME_LENGTH};

const NORTH: &str = "17X100A100R0000L";
const SOUTH: &str = "17X100A100R0001J";
const TODAY: Day = Day(7690);
const TOMORROW: Day = Day(7691);

fn refused(number: u32) -> Refusal {
    Refusal { number, place: 0 }
}

/// A register with two actors, the category 13120 and a load for each actor on the day after the clock's.
fn exchanging() -> Result<Register, Refusal> {
    let mut register = Register::new();
    register.advance(TODAY, 600)?;
    for actor in [NORTH, SOUTH] {
        register.enrol_actor(actor, TODAY, Day::LAST)?;
    }
    register.enrol_category("13120")?;
    for actor in [NORTH, SOUTH] {
        register.load(actor, "13120", TOMORROW, 100, &[60; 48])?;
    }
    Ok(register)
}

#[test]
fn parsing_refuses_it() {
    for text in ["13120\0", "1312\0\0", "\0\0\0\0\0\0", "13120C\0", "13120\0\0", "1312", ""] {
        assert_eq!(text.parse::<Category>(), Err(refused(9)), "{text:?}");
    }
    assert_eq!("13120".parse(), Ok(Category(*b"13120\0")));
    assert_eq!("13120C".parse(), Ok(Category(*b"13120C")));
}

#[test]
fn no_call_takes_it_for_the_five_digits() -> Result<(), Refusal> {
    for text in ["13120\0", "13120\0\0", "13120C\0", "1312\0"] {
        let mut register = Register::new();
        assert_eq!(register.enrol_category(text), Err(refused(9)), "{text:?}");
        assert!(register == Register::new(), "{text:?}");

        let mut register = exchanging()?;
        let before = register.clone();
        assert_eq!(register.enrol_category(text.as_bytes()), Err(refused(9)), "{text:?}");
        assert_eq!(register.load(NORTH, text, Day(7692), 100, &[60; 48]), Err(refused(23)), "{text:?}");
        assert_eq!(register.engagement(NORTH, text, TOMORROW, 0), Err(refused(23)), "{text:?}");
        assert!(register == before, "{text:?}");
        assert_eq!(register.engagement(NORTH, "13120", TOMORROW, 0), Ok(60));
    }
    Ok(())
}

/// The six bytes of a [`Category`] are the five digits and a 0: that value is the category, and its text has five bytes.
#[test]
fn the_value_is_its_text() -> Result<(), Refusal> {
    let category = Category(*b"13120\0");
    assert_eq!((category.as_ref(), category.to_string()), (&b"13120"[..], "13120".to_string()));
    assert_eq!(exchanging()?.engagement(NORTH, category, TOMORROW, 0), Ok(60));
    for raw in [*b"1312\0\0", *b"\0\0\0\0\0\0", *b"1312\0C"] {
        assert_eq!(Register::new().enrol_category(Category(raw)), Err(refused(9)), "{raw:?}");
        assert_eq!(exchanging()?.engagement(NORTH, Category(raw), TOMORROW, 0), Err(refused(23)), "{raw:?}");
        let (mut name, mut body) = ([0; NAME_LENGTH], [0; BODY_LENGTH]);
        let (north, south): (Code, Code) = (NORTH.parse()?, SOUTH.parse()?);
        let notification = Notification::new(north, south, Category(raw), TOMORROW, &[40; 48]);
        assert_eq!(notification.write(&mut name, &mut body), Err(refused(9)), "{raw:?}");
    }
    Ok(())
}

#[test]
fn no_file_says_it() -> Result<(), Refusal> {
    let (mut name, mut body) = ([0; NAME_LENGTH], [0; BODY_LENGTH]);
    let exchange = Notification::new(NORTH.parse()?, SOUTH.parse()?, "13120".parse()?, TOMORROW, &[40; 48]);
    let (name_length, body_length) = exchange.write(&mut name, &mut body)?;
    let (name, body) = (&name[..name_length], &body[..body_length]);
    assert_eq!(Notification::read(name, body), Ok(exchange));

    let with_nul = |text: &[u8]| {
        let at = text.windows(5).position(|part| part == b"13120").expect("the category stands in name and header") + 5;
        [&text[..at], &[0], &text[at..]].concat()
    };
    let (other_name, other_body) = (with_nul(name), with_nul(body));
    assert_eq!(Notification::read(&other_name, body), Err(refused(1)));
    assert_eq!(Notification::read(&other_name, &other_body), Err(refused(1)));
    assert_eq!(Notification::read(name, &other_body), Err(Refusal { number: 3, place: 1 }));
    let mut register = exchanging()?;
    assert_eq!(register.file(NORTH, &other_name, &other_body), Err(refused(1)));
    Ok(())
}
