//! An actor's history: by day, earliest first, and within a day by id, lowest first, into buffers of every length.

use register::{Day, Notification, Refusal, Register, Status, BODY_LENGTH, NAME_LENGTH};

const NORTH: &str = "17X100A100R0000L";
const SOUTH: &str = "17X100A100R0001J";
const EAST: &str = "17X100A100R0002H";
const WEST: &str = "17X100A100R0003F";
/// The clock's day at first; the loads are for the eight days after it.
const EVE: Day = Day(7690);
/// No id.
const UNTOUCHED: u32 = 999;

fn day(after: u32) -> Day {
    Day(EVE.0 + after)
}

/// A register with three actors, one category, and loads for each actor on the eight days after the clock's.
fn exchanging() -> Result<Register, Refusal> {
    let mut register = Register::new();
    register.advance(EVE, 600)?;
    register.enrol_category("13120")?;
    for actor in [NORTH, SOUTH, EAST] {
        register.enrol_actor(actor, EVE, Day::LAST)?;
        for after in 1..=8 {
            register.load(actor, "13120", day(after), 1000, &[500; 48])?;
        }
    }
    Ok(register)
}

/// Files an exchange of one power, and gives the record's status.
fn file(register: &mut Register, by: &str, parties: [&str; 2], day: Day, power: u16) -> Result<Status, Refusal> {
    let (mut name, mut body) = ([0; NAME_LENGTH], [0; BODY_LENGTH]);
    let [ceder, acquirer] = [parties[0].parse()?, parties[1].parse()?];
    let exchange = Notification::new(ceder, acquirer, "13120".parse()?, day, &[power; 48]);
    let (name_length, body_length) = exchange.write(&mut name, &mut body)?;
    register.file(by, &name[..name_length], &body[..body_length]).map(|filed| filed.status)
}

/// The actor has this history: it fits into every buffer that is long enough, the rest of which is left, and a shorter one is refused
/// and left.
fn listed(register: &Register, actor: &str, ids: &[u32]) {
    for length in [0, 1, ids.len() - 1, ids.len(), ids.len() + 1, 256, 300] {
        let mut buffer = [UNTOUCHED; 300];
        let answer = register.history(actor, &mut buffer[..length]);
        let filled = if ids.len() <= length { ids } else { &[] };
        let refused = Refusal { number: 36, place: 0 };
        assert_eq!(answer, if ids.len() <= length { Ok(ids.len()) } else { Err(refused) }, "{actor}, {length} places");
        assert_eq!(&buffer[..filled.len()], filled, "{actor}, {length} places");
        assert!(buffer[filled.len()..].iter().all(|id| *id == UNTOUCHED), "{actor}, {length} places");
    }
}

#[test]
fn runs_by_day_and_within_a_day_by_id() -> Result<(), Refusal> {
    let mut register = exchanging()?;
    let (to_south, to_east) = ([NORTH, SOUTH], [NORTH, EAST]);
    file(&mut register, NORTH, to_south, day(5), 40)?;
    file(&mut register, NORTH, to_south, day(2), 40)?;
    file(&mut register, NORTH, to_east, day(3), 40)?;
    file(&mut register, EAST, [EAST, SOUTH], day(2), 40)?;
    listed(&register, NORTH, &[2, 3, 1]);
    listed(&register, SOUTH, &[2, 4, 1]);
    listed(&register, EAST, &[4, 3]);

    // A deleted and an obsolete record stay where their day and id put them.
    file(&mut register, NORTH, to_south, day(5), 41)?;
    assert_eq!(file(&mut register, SOUTH, to_south, day(2), 40)?, Status::Validated);
    file(&mut register, SOUTH, to_south, day(2), 30)?;
    assert_eq!(file(&mut register, NORTH, to_south, day(2), 30)?, Status::Validated);
    let statuses = [1, 6].map(|id| register.record(NORTH, id).map(|record| record.status));
    assert_eq!(statuses, [Ok(Status::Deleted), Ok(Status::Obsolete)]);
    listed(&register, NORTH, &[2, 6, 7, 8, 3, 1, 5]);
    listed(&register, SOUTH, &[2, 4, 6, 7, 8, 1, 5]);

    let mut buffer = [UNTOUCHED; 256];
    assert_eq!(register.history(WEST, &mut buffer), Err(Refusal { number: 22, place: 0 }));
    assert_eq!(buffer, [UNTOUCHED; 256]);
    Ok(())
}

#[test]
fn holds_255_records_of_eight_days() -> Result<(), Refusal> {
    let mut register = exchanging()?;
    register.advance(day(1), 600)?;
    let mut by_day: [Vec<u32>; 8] = Default::default();
    for id in 1..=255 {
        let after = id * 3 % 8;
        file(&mut register, NORTH, [NORTH, SOUTH], day(1 + after), 1 + id as u16)?;
        by_day[after as usize].push(id);
    }
    let ids = by_day.concat();
    listed(&register, NORTH, &ids);
    listed(&register, SOUTH, &ids);
    Ok(())
}
