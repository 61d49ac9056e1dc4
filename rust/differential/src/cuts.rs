//! A file's body in pieces, by document 02, K4: whatever the cuts, the verdict of the whole body.

use register::{FileReader, Notification, Refusal};

use crate::damage::damaged;
use crate::files::note;
use crate::random::Random;
use crate::tally::{Cut, Tally};

/// The places where a body is cut, from the first to the last; one that comes twice makes an empty piece.
type Places = Vec<usize>;

/// Reads a body cut at these places.
fn read(name: &[u8], body: &[u8], places: &[usize]) -> Result<Notification, Refusal> {
    let mut reader = FileReader::begin(name);
    let mut from = 0;
    for to in places.iter().copied().chain([body.len()]) {
        reader.feed(&body[from..to]);
        from = to;
    }
    reader.end()
}

/// What stands around a cut.
fn cut(body: &[u8], at: usize) -> Cut {
    let start = body[..at].iter().rposition(|b| *b == b'\n').map_or(0, |lf| lf + 1);
    let end = body[at..].iter().position(|b| *b == b'\n').map_or(body.len(), |lf| at + lf);
    Cut {
        first: start == 0,
        before: at - start,
        semicolons: body[start..at].iter().filter(|b| **b == b';').count(),
        line: end - start,
        at,
    }
}

/// Reads a body cut at these places and holds the answer against that of the whole.
fn compare(
    name: &[u8], body: &[u8], places: &[usize], whole: &Result<Notification, Refusal>, tally: &mut Tally,
) -> Result<(), String> {
    let last = places.first() == Some(&0) || places.last() == Some(&body.len());
    tally.cuts(places.iter().map(|at| cut(body, *at)), last || places.windows(2).any(|two| two[0] == two[1]));
    let answer = read(name, body, places);
    if answer == *whole {
        return Ok(());
    }
    Err(format!(
        "reading '{}'\n'{}'\ncut at {places:?}: {answer:?}\nwhole: {whole:?}",
        name.escape_ascii(),
        body.escape_ascii()
    ))
}

/// Places in one of several ways: none, one, every, every so many bytes, some at random.
fn places(random: &mut Random, body: &[u8]) -> Places {
    match random.below(5) {
        0 => vec![],
        1 => vec![random.below(body.len() + 1)],
        2 => (1..body.len()).collect(),
        3 => (0..body.len()).step_by(random.within(1, 100)).skip(1).collect(),
        _ => {
            let mut places: Places = (0..random.within(2, 40)).map(|_| random.below(body.len() + 1)).collect();
            places.sort_unstable();
            places
        }
    }
}

/// A file, good or damaged.
fn file(random: &mut Random) -> (Vec<u8>, Vec<u8>) {
    let note = note(random);
    if random.one_in(4) {
        note.file()
    } else {
        damaged(random, note)
    }
}

/// A file cut in one way; the whole of it is read by both elsewhere.
pub fn reading(random: &mut Random, tally: &mut Tally) -> Result<(), String> {
    let (name, body) = file(random);
    compare(&name, &body, &places(random, &body), &Notification::read(&name, &body), tally)
}

/// A file cut in two at every place, byte by byte, and in a thousand random ways.
pub fn every_way(random: &mut Random, tally: &mut Tally) -> Result<(), String> {
    let (name, body) = file(random);
    let whole = Notification::read(&name, &body);
    for at in 0..=body.len() {
        compare(&name, &body, &[at], &whole, tally)?;
    }
    compare(&name, &body, &(1..body.len()).collect::<Places>(), &whole, tally)?;
    for _ in 0..1000 {
        compare(&name, &body, &places(random, &body), &whole, tally)?;
    }
    Ok(())
}
