//! The proved readers beside the peer's: the same files and objects, one run, ns and the ratio. `reading count` and one of their names
//! only reads, for callgrind.

mod objects;

use std::hint::black_box;
use std::time::Instant;

use peer::notification::{read, write, Notification};
use register::ffi::{self, FileRead};

use objects::{as_in_the_guide, peer_object, proved_object, without_blanks};

/// The lengths of the pieces in which bodies are read; the peer reads whole ones.
const PIECES: [usize; 6] = [4096, 512, 64, 16, 7, 1];

#[inline(never)]
fn proved_reader(name: &[u8], body: &[u8]) -> FileRead {
    ffi::read(name, body)
}

/// The body in pieces of a length.
#[inline(never)]
fn proved_pieces(name: &[u8], body: &[u8], length: usize) -> FileRead {
    let mut reader = ffi::begin(name);
    for piece in body.chunks(length) {
        reader = ffi::feed(reader, piece);
    }
    ffi::notification_end(reader)
}

#[inline(never)]
fn peer_reader(name: &[u8], body: &[u8]) -> Result<Notification, peer::Refusal> {
    read(name, body)
}

/// A valid notification of 48 steps with powers of one to three digits.
fn notification(seed: u64) -> Notification {
    let mut state = seed;
    let mut below = |n: u64| {
        state = state.wrapping_mul(6364136223846793005).wrapping_add(1442695040888963407);
        (((state >> 32) * n) >> 32) as i16
    };
    let level = 2 + below(90);
    let mut powers = [0i16; 50];
    powers[..48].iter_mut().for_each(|p| *p = level + below(25));
    let day = peer::calendar::day_of(b"20210120").unwrap();
    Notification {
        ceder: *b"17X100A100R0000L",
        acquirer: *b"17X100A100R0001J",
        category: *b"13120\0",
        day,
        steps: 48,
        powers,
    }
}

fn file(n: &Notification) -> (Vec<u8>, Vec<u8>) {
    let (mut name, mut body) = ([0; 64], [0; 1024]);
    let (a, b) = write(n, &mut name, &mut body).unwrap();
    (name[..a].to_vec(), body[..b].to_vec())
}

/// Both readers say the same of a file, whole and with each byte changed.
fn compare(name: &[u8], body: &[u8]) {
    let same = |name: &[u8], body: &[u8]| {
        let ours = proved_reader(name, body);
        match peer_reader(name, body) {
            Ok(n) => {
                assert_eq!((ours.number, ours.place, ours.steps), (0, 0, n.steps as u32));
                assert_eq!(
                    (ours.day, ours.ceder, ours.acquirer, ours.category),
                    (n.day as u32, n.ceder, n.acquirer, n.category)
                );
                assert!(ours.powers.iter().zip(&n.powers).all(|(a, b)| *a as i16 == *b));
            }
            Err(r) => assert_eq!((ours.number, ours.place), (r.number as u32, r.place as u32)),
        }
    };
    same(name, body);
    for i in 0..body.len() {
        for b in [b'0', b'9', b';', b'\n', b':', b'A', b'_', 0, 255] {
            let mut other = body.to_vec();
            other[i] = b;
            same(name, &other);
        }
        same(name, &body[..i]);
        same(name, &body[i..]);
    }
    for i in 0..name.len() {
        for b in [b'0', b'9', b'_', b'A', 0] {
            let mut other = name.to_vec();
            other[i] = b;
            same(&other, body);
        }
    }
}

/// Reads each text once.
fn each<T, A>(texts: &[T], f: impl Fn(&T) -> A) {
    for text in texts {
        let _ = black_box(f(black_box(text)));
    }
}

fn nanoseconds<T, A>(texts: &[T], f: impl Fn(&T) -> A) -> f64 {
    let mut best = f64::MAX;
    for _ in 0..2000 {
        let start = Instant::now();
        each(texts, &f);
        best = best.min(start.elapsed().as_nanos() as f64 / texts.len() as f64);
    }
    best
}

/// Prints the times of both readers, or only reads where the count is of this name.
fn measure<T, A, B>(name: &str, count: Option<&str>, texts: &[T], ours: impl Fn(&T) -> A, peers: impl Fn(&T) -> B) {
    match count {
        None => {
            let (ours, peers) = (nanoseconds(texts, ours), nanoseconds(texts, peers));
            println!("{name} proved {ours:.1} ns, peer {peers:.1} ns, ratio {:.2}", ours / peers);
        }
        Some(only) if only == name => {
            each(texts, ours);
            each(texts, peers);
        }
        Some(_) => {}
    }
}

fn main() {
    let words: Vec<String> = std::env::args().skip(1).collect();
    let count = match &words[..] {
        [count, name] if count == "count" => Some(&name[..]),
        _ => None,
    };
    let notifications: Vec<_> = (0..64).map(|i| notification(i * 7919 + 1)).collect();
    let files: Vec<_> = notifications.iter().map(file).collect();
    let objects: Vec<_> = notifications.iter().map(without_blanks).collect();
    let laid_out: Vec<_> = notifications.iter().map(as_in_the_guide).collect();
    if count.is_none() {
        compare(&files[0].0, &files[0].1);
        compare(&files[5].0, &files[5].1);
        objects::compare(&objects[0]);
        objects::compare(&laid_out[5]);
    }
    measure("file", count, &files, |(name, body)| proved_reader(name, body), |(name, body)| peer_reader(name, body));
    for length in PIECES {
        measure(
            &format!("pieces_{length}"),
            count,
            &files,
            |(name, body)| proved_pieces(name, body, length),
            |(name, body)| peer_reader(name, body),
        );
    }
    for (name, texts) in [("object", &objects), ("object_laid_out", &laid_out)] {
        measure(name, count, texts, |body| proved_object(body), |body| peer_object(body));
    }
}
