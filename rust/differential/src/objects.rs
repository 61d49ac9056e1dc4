//! The object's reader and its writer beside the peer's.

use peer::calendar::{day_of, steps, LAST_DAY};
use peer::notification::Notification;
use peer::object::{self as peers, Moment};
use register::{Object, OBJECT_LENGTH};

use crate::calls::Kind;
use crate::damage::damaged_object;
use crate::files::note;
use crate::layouts::{laid_out, tokens_in};
use crate::notes::{code, Note};
use crate::random::Random;
use crate::requests::{object, Request};
use crate::tally::Tally;

fn request(random: &mut Random) -> Request {
    let day = *random.pick(&[0, 59, 60, 7420, 7690, 36_524]);
    let second = random.below(86_400) as u32;
    Request { note: note(random), origin: code(random.below(12)), moment: Moment { day, second } }
}

fn read_by_both(body: &[u8], tally: &mut Tally) -> Result<(), String> {
    let ours = Object::read(body).map_err(|r| (r.number, r.place));
    let read = peers::read(body);
    tally.refusal(Kind::ReadObject, ours.map_or_else(|(number, _)| number, |_| 0));
    let theirs = read
        .as_ref()
        .map(|read| object(&read.notification, read.origin, read.moment))
        .map_err(|r| (r.number as u32, r.place as u32));
    if ours == theirs {
        return Ok(());
    }
    Err(format!("reading the object '{}'\n{ours:?}\n{read:?}", body.escape_ascii()))
}

/// An object with each of its bytes in turn replaced, taken out or put after another, and cut before each of them, read by both.
pub fn every_byte(random: &mut Random, tally: &mut Tally) -> Result<(), String> {
    let text = request(random).text(random);
    let body = laid_out(random, &tokens_in(&text));
    for at in 0..body.len() {
        let (before, after) = body.split_at(at);
        read_by_both(before, tally)?;
        read_by_both(&[before, &after[1..]].concat(), tally)?;
        for byte in *b" \t0:,\"}]\\\x0b\xff" {
            read_by_both(&[before, &[byte], after].concat(), tally)?;
            read_by_both(&[before, &[byte], &after[1..]].concat(), tally)?;
        }
    }
    read_by_both(&body, tally)
}

/// An object, good or damaged, read by both.
pub fn reading(random: &mut Random, tally: &mut Tally) -> Result<(), String> {
    let request = request(random);
    let body = if random.one_in(4) {
        let text = request.text(random);
        laid_out(random, &tokens_in(&text))
    } else {
        damaged_object(random, request)
    };
    read_by_both(&body, tally)
}

/// A request, good or not, written by both into buffers of any length, often about the one that is needed. A power past the day's
/// steps is left at 0, as for files. What is written is read back.
pub fn writing(random: &mut Random, tally: &mut Tally) -> Result<(), String> {
    let Request { note: Note { ceder, acquirer, category: text, date, powers }, origin, mut moment } = request(random);
    let mut category = [0; 6];
    category[..text.len()].copy_from_slice(&text);
    let mut origin: [u8; 16] = origin.try_into().expect("a code");
    let mut n = Notification {
        ceder: ceder.try_into().expect("a code"),
        acquirer: acquirer.try_into().expect("a code"),
        category,
        day: day_of(&date).expect("a date"),
        steps: powers.len() as u8,
        powers: [0; 50],
    };
    n.powers.iter_mut().zip(&powers).for_each(|(to, power)| *to = *power as i16);
    for _ in 0..random.below(3) {
        match random.below(14) {
            0 => n.ceder[random.below(16)] = random.next() as u8,
            1 => n.acquirer[random.below(16)] = *random.pick(b"aZ-_0 \0;"),
            2 => n.category[random.below(6)] = *random.pick(b"0aCD\0 "),
            3 => n.day = random.wild() as u16,
            4 => n.steps = *random.pick(&[0, 45, 46, 47, 48, 49, 50, 51, 255]),
            5 => n.powers[random.below(46)] = *random.pick(&[10_000, 32_767, 9999]),
            6 => n.powers = [0; 50],
            7 => origin[random.below(16)] = *random.pick(b"aZ-_0 \0\""),
            8 => moment.day = random.wild(),
            9 => moment.second = *random.pick(&[0, 59, 60, 3599, 3600, 86_399, 86_400, 86_401, 90_000, u32::MAX]),
            10 => moment.second = random.wild(),
            _ => {}
        }
    }
    let used = if n.day as u32 <= LAST_DAY { steps(n.day) } else { 46 };
    n.powers[used..].fill(0);
    let ours = object(&n, origin, moment);
    let exact = peers::write(&n, &origin, moment, &mut [0; 4096]).unwrap_or(OBJECT_LENGTH);
    let length = match random.below(8) {
        0 => random.below(exact + 1),
        1 => 0,
        2 => exact - 1,
        3 => exact,
        4 => exact + 1,
        _ => OBJECT_LENGTH + random.below(9),
    };
    let (mut left, mut right) = (vec![b'#'; length], vec![b'#'; length]);
    let answers = (
        ours.write(&mut left).map_err(|r| (r.number, r.place)),
        peers::write(&n, &origin, moment, &mut right).map_err(|r| (r.number as u32, r.place as u32)),
    );
    tally.refusal(Kind::WriteObject, answers.0.map_or_else(|(number, _)| number, |_| 0));
    if answers.0 != answers.1 || left != right {
        return Err(format!("writing {ours:?}\ninto {length} bytes: {:?} and {:?}", answers.0, answers.1));
    }
    let back = answers.0.map(|length| Object::read(&left[..length]));
    match back {
        Ok(back) if back != Ok(ours) => Err(format!("{ours:?}\nis written and read back as {back:?}")),
        _ => Ok(()),
    }
}
