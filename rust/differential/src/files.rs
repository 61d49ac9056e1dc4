//! The calendar, the reader and the writer beside the peer's.

use peer::calendar::{date_text, day_of, steps, LAST_DAY};
use register::{Category, Code, Day, Notification, BODY_LENGTH, NAME_LENGTH};

use crate::calls::Kind;
use crate::damage::damaged;
use crate::notes::{code, Note};
use crate::random::Random;
use crate::tally::Tally;

/// Every day, the numbers past the last, and texts that are no dates.
pub fn calendar(random: &mut Random) -> Result<(), String> {
    for day in 0..=LAST_DAY as u16 {
        let (ours, peers) = (Day(day as u32), date_text(day));
        if (ours.date(), ours.steps(), Day::of(peers)) != (Some(peers), Some(steps(day) as u32), Some(ours)) {
            return Err(format!("day {day}: {:?} {:?} {:?}", ours.date(), ours.steps(), Day::of(peers)));
        }
    }
    for day in [LAST_DAY + 1, LAST_DAY + 2, 65_535, 65_536, u32::MAX] {
        if (Day(day).date(), Day(day).steps()) != (None, None) {
            return Err(format!("day {day}: {:?} {:?}", Day(day).date(), Day(day).steps()));
        }
    }
    for _ in 0..100_000 {
        let mut text = format!("{:08}", 19_991_200 + random.below(1_020_000)).into_bytes();
        if random.one_in(4) {
            let at = random.below(8);
            text[at] = random.next() as u8;
        }
        if random.one_in(8) {
            text.truncate(random.below(9));
        }
        let (ours, peers) = (Day::of(&text), day_of(&text));
        if ours.map(|day| day.0) != peers.map(u32::from) {
            return Err(format!("'{}': {ours:?} and {peers:?}", text.escape_ascii()));
        }
    }
    Ok(())
}

pub fn note(random: &mut Random) -> Note {
    let days: [&[u8]; 7] = [b"20210328", b"20211031", b"20000326", b"20210120", b"20000101", b"20991231", b"20240229"];
    let date = random.pick(&days).to_vec();
    let count = day_of(&date).map_or(48, steps);
    let powers = (0..count).map(|_| *random.pick(&[0, 1, 9, 10, 99, 100, 999, 1000, 9999])).collect();
    let category = random.pick::<&[u8]>(&[b"13120", b"13120C"]).to_vec();
    Note { ceder: code(random.below(12)), acquirer: code(random.below(12)), category, date, powers }
}

/// A file, good or damaged, read by both.
pub fn reading(random: &mut Random, tally: &mut Tally) -> Result<(), String> {
    let note = note(random);
    let (name, body) = if random.one_in(4) { note.file() } else { damaged(random, note) };
    let ours = Notification::read(&name, &body);
    let peers = peer::notification::read(&name, &body);
    tally.refusal(Kind::Read, ours.map_or_else(|refusal| refusal.number, |_| 0));
    let same = match (&ours, &peers) {
        (Ok(a), Ok(b)) => {
            let powers = a.powers.iter().zip(&b.powers).all(|(a, b)| *a as i16 == *b);
            let key = (a.ceder.0, a.acquirer.0, a.category.0) == (b.ceder, b.acquirer, b.category);
            powers && key && (a.day.0, a.steps) == (b.day as u32, b.steps as u32)
        }
        (Err(a), Err(b)) => (a.number, a.place) == (b.number as u32, b.place as u32),
        _ => false,
    };
    if same {
        return Ok(());
    }
    Err(format!("reading '{}'\n'{}'\n{ours:?}\n{peers:?}", name.escape_ascii(), body.escape_ascii()))
}

/// A notification, good or not, written by both into buffers of any length. A power past the day's steps is left at 0: document 01
/// says nothing of it, and only the proved writer has that place.
pub fn writing(random: &mut Random, tally: &mut Tally) -> Result<(), String> {
    let valid = note(random);
    let mut category = [0; 6];
    category[..valid.category.len()].copy_from_slice(&valid.category);
    let mut n = peer::notification::Notification {
        ceder: valid.ceder.try_into().expect("a code"),
        acquirer: valid.acquirer.try_into().expect("a code"),
        category,
        day: day_of(&valid.date).expect("a date"),
        steps: valid.powers.len() as u8,
        powers: [0; 50],
    };
    n.powers.iter_mut().zip(&valid.powers).for_each(|(to, power)| *to = *power as i16);
    for _ in 0..random.below(3) {
        match random.below(9) {
            0 => n.ceder[random.below(16)] = random.next() as u8,
            1 => n.acquirer[random.below(16)] = *random.pick(b"aZ-_0 \0;"),
            2 => n.category[random.below(6)] = *random.pick(b"0aCD\0 "),
            3 => n.day = random.wild() as u16,
            4 => n.steps = *random.pick(&[0, 45, 46, 47, 48, 49, 50, 51, 255]),
            5 => n.powers[random.below(46)] = *random.pick(&[10_000, 32_767, 9999]),
            6 => n.powers = [0; 50],
            _ => {}
        }
    }
    let used = if n.day as u32 <= LAST_DAY { steps(n.day) } else { 46 };
    n.powers[used..].fill(0);
    let ours = Notification {
        ceder: Code(n.ceder),
        acquirer: Code(n.acquirer),
        category: Category(n.category),
        day: Day(n.day as u32),
        steps: n.steps as u32,
        powers: n.powers.map(|power| power as u16),
    };
    let short = |random: &mut Random, enough: usize| if random.one_in(4) { random.below(enough + 1) } else { enough };
    let (a, b) = (short(random, NAME_LENGTH), short(random, BODY_LENGTH));
    let (mut left, mut right) = ((vec![b'#'; a], vec![b'#'; b]), (vec![b'#'; a], vec![b'#'; b]));
    let answers = (
        ours.write(&mut left.0, &mut left.1).map_err(|r| (r.number, r.place)),
        peer::notification::write(&n, &mut right.0, &mut right.1).map_err(|r| (r.number as u32, r.place as u32)),
    );
    tally.refusal(Kind::Write, answers.0.map_or_else(|(number, _)| number, |_| 0));
    if answers.0 == answers.1 && left == right {
        return Ok(());
    }
    Err(format!("writing {ours:?}\ninto {a} and {b} bytes: {:?} and {:?}", answers.0, answers.1))
}
