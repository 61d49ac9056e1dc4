//! The proved register beside the peer's: the same filings, engagement calls and histories in one run, in ns, with the ratio.
//! `filing count CASE SIDE` only calls, for callgrind, and prints how often. `filing scripts PROVED PEER` times the script programs.

mod both;
mod scripts;

use std::hint::black_box;
use std::time::Instant;

use both::{code, day, written, Both, Random};
use peer::notification::Notification;
use register::{Day, Filed, Refusal, Register};

/// The cases: what a filing does, and how many records are held.
const CASES: [(&str, usize, bool); 8] = [
    ("created_1", 1, false),
    ("created_64", 64, false),
    ("created_128", 128, false),
    ("created_255", 255, false),
    ("paired_1", 1, true),
    ("paired_64", 64, true),
    ("paired_128", 128, true),
    ("paired_255", 255, true),
];

const ENGAGEMENT: &str = "engagement_255";

/// The histories of an actor with 255 records: how they were filed over eight days, and how many places the lent buffer has.
const HISTORIES: [(&str, DayOf, usize); 4] = [
    ("history_in_day_order", |n, _| n * 8 / 255, 256),
    ("history_against_it", |n, _| 7 - n * 8 / 255, 256),
    ("history_eight_days_mixed", |_, random| random.below(8), 256),
    ("history_buffer_one_short", |_, random| random.below(8), 254),
];

/// How many days after the clock's the n-th record's is.
type DayOf = fn(usize, &mut Random) -> usize;

/// How often a history is asked for at a time.
const ASKED: usize = 64;

#[inline(never)]
fn proved_filing(r: &mut Register, by: &[u8], name: &[u8], body: &[u8]) -> Result<Filed, Refusal> {
    r.file(by, name, body)
}

#[inline(never)]
fn peer_filing(
    r: &mut peer::register::Register, by: &[u8], name: &[u8], body: &[u8],
) -> Result<peer::register::Filed, peer::Refusal> {
    r.file(by, name, body)
}

#[inline(never)]
fn proved_engagement(r: &Register, actor: &[u8], category: &[u8], day: u32, step: u32) -> Result<u32, Refusal> {
    r.engagement(actor, category, Day(day), step)
}

#[inline(never)]
fn peer_engagement(
    r: &peer::register::Register, actor: &[u8], category: &[u8], day: u32, step: u32,
) -> Result<i32, peer::Refusal> {
    r.engagement(actor, category, day, step)
}

#[inline(never)]
fn proved_history(r: &Register, actor: &[u8], ids: &mut [u32]) -> Result<usize, Refusal> {
    r.history(actor, ids)
}

#[inline(never)]
fn peer_history(r: &peer::register::Register, actor: &[u8], ids: &mut [u16]) -> Result<usize, peer::Refusal> {
    r.history(actor, ids)
}

/// Seven times the median of many slices, and the median of those; a slice gives ns per call.
fn nanoseconds(mut slice: impl FnMut() -> f64) -> f64 {
    median(7, || median(501, &mut slice))
}

fn median(count: usize, mut f: impl FnMut() -> f64) -> f64 {
    let mut values: Vec<f64> = (0..count).map(|_| f()).collect();
    values.sort_by(f64::total_cmp);
    values[count / 2]
}

fn timed(calls: usize, f: impl FnOnce()) -> f64 {
    let start = Instant::now();
    f();
    start.elapsed().as_nanos() as f64 / calls as f64
}

/// Eight copies are restored, then the filing is timed on each: with 255 records there is room for one only.
fn time_filing<R: Clone>(start: &R, mut file: impl FnMut(&mut R)) -> f64 {
    let mut pool = vec![start.clone(); 8];
    nanoseconds(|| {
        pool.iter_mut().for_each(|r| r.clone_from(start));
        timed(8, || black_box(&mut pool).iter_mut().for_each(&mut file))
    })
}

/// The moments asked for: each step of four days.
fn moments() -> impl Iterator<Item = (u32, u32)> {
    (0..4).flat_map(|after| (0..48).map(move |step| (day(after) as u32, step)))
}

fn time_engagement(mut ask: impl FnMut(u32, u32)) -> f64 {
    nanoseconds(|| timed(4 * 48, || moments().for_each(|(day, step)| ask(black_box(day), black_box(step)))))
}

fn time_history(mut ask: impl FnMut()) -> f64 {
    nanoseconds(|| timed(ASKED, || (0..ASKED).for_each(|_| ask())))
}

fn print(name: &str, proved: f64, peer: f64) {
    println!("{name:<16} proved {proved:>8.1} ns, peer {peer:>8.1} ns, ratio {:.2}", proved / peer);
}

fn filing(name: &str, start: &Both, n: &Notification) {
    let (file_name, body) = written(n);
    let proved = time_filing(&start.proved, |r| {
        let _ = black_box(proved_filing(r, black_box(&n.acquirer), black_box(&file_name), black_box(&body)));
    });
    let peer = time_filing(&start.peer, |r| {
        let _ = black_box(peer_filing(r, black_box(&n.acquirer), black_box(&file_name), black_box(&body)));
    });
    print(name, proved, peer);
}

/// Before a case is timed, both answer it alike, and the engagements before and after it.
fn compare(start: &Both, n: &Notification) {
    let (name, body) = written(n);
    let mut both = start.clone();
    both.engagements();
    assert!(both.file(&n.acquirer, &name, &body));
    both.engagements();
}

fn all() {
    let (ours, peers) = (size_of::<Register>(), size_of::<peer::register::Register>());
    println!("bytes copied a call: {}, state {ours} bytes, peer's {peers}", size_of::<register::ffi::Head>());
    for (name, held, paired) in CASES {
        let (start, n) = Both::fixture(held, paired);
        compare(&start, &n);
        filing(name, &start, &n);
    }
    let (both, n) = Both::fixture(255, true);
    let proved = time_engagement(|day, step| {
        let _ = black_box(proved_engagement(black_box(&both.proved), &n.ceder, b"13120", day, step));
    });
    let peer = time_engagement(|day, step| {
        let _ = black_box(peer_engagement(black_box(&both.peer), &n.ceder, b"13120", day, step));
    });
    print(ENGAGEMENT, proved, peer);
    for (name, day_of, length) in HISTORIES {
        history(name, &Both::listed(day_of), length);
    }
}

/// Before a history is timed, both list the same ids in the same order; one place less than there are records is too short.
fn history(name: &str, both: &Both, length: usize) {
    let (actor, mut ids, mut peers_ids) = (code(2), [0; 256], [0; 256]);
    assert!([255, 256].iter().all(|length| both.history(&actor, *length)) && !both.history(&actor, 254));
    let proved = time_history(|| {
        let ids = black_box(&mut ids[..length]);
        let _ = black_box(proved_history(black_box(&both.proved), black_box(&actor), ids));
    });
    let peer = time_history(|| {
        let ids = black_box(&mut peers_ids[..length]);
        let _ = black_box(peer_history(black_box(&both.peer), black_box(&actor), ids));
    });
    print(name, proved, peer);
}

/// Makes the calls of one case on one side.
fn count(case: &str, side: &str) {
    if case == ENGAGEMENT {
        let (both, n) = Both::fixture(255, true);
        for (day, step) in moments() {
            if side == "proved" {
                let _ = black_box(proved_engagement(&both.proved, &n.ceder, b"13120", day, step));
            } else {
                let _ = black_box(peer_engagement(&both.peer, &n.ceder, b"13120", day, step));
            }
        }
        println!("{}", moments().count());
        return;
    }
    if let Some((_, day_of, length)) = HISTORIES.into_iter().find(|c| c.0 == case) {
        let both = Both::listed(day_of);
        for _ in 0..ASKED {
            if side == "proved" {
                let _ = black_box(proved_history(&both.proved, &code(2), &mut [0; 256][..length]));
            } else {
                let _ = black_box(peer_history(&both.peer, &code(2), &mut [0; 256][..length]));
            }
        }
        println!("{ASKED}");
        return;
    }
    let (_, held, paired) = CASES.into_iter().find(|c| c.0 == case).expect("a case");
    let (mut both, n) = Both::fixture(held, paired);
    let (name, body) = written(&n);
    if side == "proved" {
        let _ = black_box(proved_filing(&mut both.proved, &n.acquirer, &name, &body));
    } else {
        let _ = black_box(peer_filing(&mut both.peer, &n.acquirer, &name, &body));
    }
    println!("1");
}

fn main() {
    let args: Vec<String> = std::env::args().skip(1).collect();
    match args.iter().map(String::as_str).collect::<Vec<_>>()[..] {
        ["count", case, side] => count(case, side),
        ["scripts", proved, peer] => scripts::all(proved, peer),
        _ => all(),
    }
}
