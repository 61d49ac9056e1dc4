//! The proved register beside the peer, on random lists of calls: every answer, and at the end every engagement, record and
//! history. Then the test of the test: each faulty copy of the peer must be told from the register by the same lists.
//!
//! `LISTS` and `SEED` set how many lists there are and which; the seed of a run is printed. Status 1 says that something differs, that
//! a refusal, a change of a status, a form of a filing, a kind of history, a case of the last half hour or a kind of cut was never met, or
//! that a fault was not found; the last two are asked of long runs only.

mod calls;
mod compare;
mod cuts;
mod damage;
mod files;
mod layouts;
mod lists;
mod notes;
mod objects;
mod random;
mod requests;
mod sides;
mod tally;

use std::process::ExitCode;
use std::time::{Instant, SystemTime, UNIX_EPOCH};
use std::{env, fmt::Display};

use calls::Call;
use compare::Difference;
use random::Random;
use register::Register;
use sides::{sound, Side};
use tally::Tally;

include!("../faults.rs");

/// The copies of the peer that the build has made.
#[allow(dead_code)]
mod faulty {
    include!(concat!(env!("OUT_DIR"), "/faulty.rs"));
}

const LISTS: u64 = 8000;
/// So many lists meet every refusal, every kind of history and every fault.
const ENOUGH: u64 = 2000;

fn setting(name: &str, otherwise: u64) -> u64 {
    match env::var(name) {
        Ok(text) => text.parse().unwrap_or_else(|_| panic!("{name} must be a number, and is '{text}'")),
        Err(_) => otherwise,
    }
}

fn list(seed: u64, number: u64) -> Vec<Call> {
    lists::list(&mut Random::new(seed, number), number)
}

/// Prints the calls that were made, what was asked then, and both answers.
fn print(calls: &[Call], difference: &Difference) {
    calls[..difference.made].iter().enumerate().for_each(|(i, call)| println!("{:5} {call}", i + 1));
    println!("asked: {}\nregister: {}\npeer:     {}", difference.asked, difference.left, difference.right);
}

fn report(seed: u64, number: u64, calls: &[Call], difference: &Difference) {
    println!("seed {seed}, list {number}: the sides differ after {} calls", difference.made);
    print(calls, difference);
    let short = compare::shortened::<Register, sound::Peer>(calls);
    if let Err(difference) = compare::run::<Register, sound::Peer>(&short, &mut Tally::default()) {
        println!("a shorter list on which they differ:");
        print(&short, &difference);
    }
}

/// How many lists it takes to tell the register from a faulty peer, and to how few calls the last of them can be cut.
fn found<B: Side>(seed: u64, lists: u64) -> Option<(u64, usize)> {
    let differs = |calls: &Vec<Call>| compare::run::<Register, B>(calls, &mut Tally::default()).is_err();
    let (number, calls) = (0..lists).map(|number| (number, list(seed, number))).find(|(_, calls)| differs(calls))?;
    Some((number + 1, compare::shortened::<Register, B>(&calls).len()))
}

type Finder = fn(u64, u64) -> Option<(u64, usize)>;

/// One function for each copy, in the order of the list of faults.
macro_rules! faults {
    ($($name:ident)*) => {
        mod copies {
            $(crate::sides::peer_side!($name, crate::faulty::$name);)*
            use super::sides::{No, Shown, Side};
        }
        const FINDERS: [(&str, Finder); FAULTS.len()] =
            [$((stringify!($name), found::<copies::$name::Peer>)),*];
    };
}

faults!(
    neutral_hour_rounded_up only_32_and_33_on_a_replacement pairs_counted_steps_only opposite_keys_netted
    old_power_subtracted_twice updated_goes_on_counting own_created_not_deleted place_from_the_first_counted_step
    lines_counted_after_the_fault history_in_the_order_of_filing history_latest_day_first
    history_highest_id_first_within_a_day last_place_of_a_buffer_left_out neutral_hour_ends_at_midnight
    step_count_of_the_delivery_day tomorrows_exchange_obsolete load_for_tomorrow_in_the_last_half_hour
    origin_not_compared origin_before_the_powers steps_of_an_object_counted_from_0 labels_before_the_step_count
    power_before_the_labels last_wrong_step_named
    delivery_at_any_time comma_after_the_last_step text_after_the_object object_one_byte_too_long no_tab_between_tokens
);

fn failed(what: impl Display) -> ExitCode {
    println!("{what}");
    ExitCode::FAILURE
}

fn main() -> ExitCode {
    let now = SystemTime::now().duration_since(UNIX_EPOCH).map_or(0, |time| time.as_nanos() as u64);
    let (seed, lists, start) = (setting("SEED", now), setting("LISTS", LISTS), Instant::now());
    println!("seed {seed}, {lists} lists");

    let mut tally = Tally::default();
    let mut random = Random::new(seed, u64::MAX);
    if let Err(what) = files::calendar(&mut random) {
        return failed(what);
    }
    for _ in 0..lists.div_ceil(400) {
        if let Err(what) = objects::every_byte(&mut random, &mut tally) {
            return failed(what);
        }
    }
    for _ in 0..lists.div_ceil(200) {
        if let Err(what) = cuts::every_way(&mut random, &mut tally) {
            return failed(what);
        }
    }
    for _ in 0..20 * lists {
        for compare in [files::reading, cuts::reading, files::writing, objects::reading, objects::writing] {
            if let Err(what) = compare(&mut random, &mut tally) {
                return failed(what);
            }
        }
    }
    for number in 0..lists {
        let calls = list(seed, number);
        if let Err(difference) = compare::run::<Register, sound::Peer>(&calls, &mut tally) {
            report(seed, number, &calls, &difference);
            return ExitCode::FAILURE;
        }
    }
    let wrong = tally.print();
    println!("{} calls, no difference, {:.1} s", tally.calls(), start.elapsed().as_secs_f64());
    if lists < ENOUGH {
        println!("with fewer than {ENOUGH} lists not every refusal and fault is looked for");
        return ExitCode::SUCCESS;
    }
    if !wrong.is_empty() {
        return failed(wrong.join("\n"));
    }

    for (fault, (name, find)) in FAULTS.iter().zip(FINDERS) {
        assert_eq!(fault.name, name, "the finders stand in the order of the faults");
        match find(seed, lists) {
            Some((count, calls)) => {
                println!("fault {name} (\"{}\"): found by list {count}, cut to {calls} calls", fault.breaks);
            }
            None => return failed(format!("fault {name}: not found by {lists} lists")),
        }
    }
    println!("{:.1} s in all", start.elapsed().as_secs_f64());
    ExitCode::SUCCESS
}
