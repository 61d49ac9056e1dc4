//! Two long scripts through the two script programs, process start included: 20,000 engagement lines in one run, and 80 runs of 250
//! filings, each on a fresh register. The scripts are those of the peer's own benchmark.

use std::fs::{self, File};
use std::path::{Path, PathBuf};
use std::process::Command;
use std::time::Instant;

use peer::calendar::date_text;

use crate::both::{code, day, written, Random, CATEGORIES};

fn text(bytes: &[u8]) -> String {
    String::from_utf8_lossy(bytes).trim_end_matches('\0').to_owned()
}

/// The lines of eight actors and two categories, all with loads on four days: 64 loads.
fn setup() -> String {
    let mut lines = String::from("T,20210119,600\n");
    (0..8).for_each(|a| lines += &format!("A,{},20200101,20221231\n", text(&code(a))));
    CATEGORIES.iter().for_each(|c| lines += &format!("C,{}\n", text(*c)));
    for i in 0..64 {
        let (actor, category, date) = (text(&code(i % 8)), text(CATEGORIES[i / 8 % 2]), text(&date_text(day(i / 16))));
        lines += &format!("L,{actor},{category},{date},9000{}\n", ",4000".repeat(48));
    }
    lines
}

fn engagements(random: &mut Random) -> String {
    let mut lines = setup();
    for _ in 0..20_000 {
        let (n, step) = (random.notification(), random.below(48));
        lines += &format!("E,{},{},{},{step}\n", text(&n.ceder), text(&n.category), text(&date_text(n.day)));
    }
    lines
}

/// Each filing's file is written into the folder, where the programs run.
fn filings(random: &mut Random, folder: &Path) -> String {
    let mut lines = setup();
    for _ in 0..125 {
        let n = random.notification();
        let (name, body) = written(&n);
        let (name, ceder, acquirer) = (text(&name), text(&n.ceder), text(&n.acquirer));
        if !folder.join(&name).exists() {
            fs::write(folder.join(&name), body).unwrap(); // a key that comes again is filed again as it was
        }
        lines += &format!("F,{ceder},{name}\nF,{acquirer},{name}\n");
    }
    lines
}

/// Runs a script, and gives the nanoseconds from the program's start to its end.
fn run(program: &Path, folder: &Path) -> f64 {
    let (input, output) = (File::open(folder.join("script")).unwrap(), File::create(folder.join("out")).unwrap());
    let start = Instant::now();
    let status = Command::new(program).current_dir(folder).stdin(input).stdout(output).status().unwrap();
    let took = start.elapsed().as_nanos() as f64;
    assert!(status.success());
    took
}

/// Of `runs` runs a round, in which the programs take turns, the nanoseconds a line: median and minimum of the rounds.
fn time(name: &str, script: &str, lines: usize, [runs, rounds]: [usize; 2], programs: &[PathBuf; 2], folder: &Path) {
    fs::write(folder.join("script"), script).unwrap();
    let answers = programs.each_ref().map(|program| {
        run(program, folder);
        fs::read(folder.join("out")).unwrap()
    });
    assert!(answers[0] == answers[1], "other answers");
    assert!(!text(&answers[0]).contains(",no,"));
    let mut took = [vec![], vec![]];
    for _ in 0..rounds {
        let mut round = [0.0; 2];
        for _ in 0..runs {
            (0..2).for_each(|side| round[side] += run(&programs[side], folder));
        }
        (0..2).for_each(|side| took[side].push(round[side] / (lines * runs) as f64));
    }
    took.iter_mut().for_each(|t| t.sort_by(f64::total_cmp));
    let ([proved, peer], [least, least_peer]) = (took.each_ref().map(|t| t[rounds / 2]), took.each_ref().map(|t| t[0]));
    let (ratio, ratio_of_least) = (proved / peer, least / least_peer);
    println!("{name} proved {proved:.1} ns, peer {peer:.1} ns, ratio {ratio:.2}, of the minima {ratio_of_least:.2}");
}

pub fn all(proved: &str, peer: &str) {
    let programs = [proved, peer].map(|p| fs::canonicalize(p).unwrap());
    let folder = std::env::temp_dir().join(format!("scripts-{}", std::process::id()));
    fs::create_dir(&folder).unwrap();
    let mut random = Random(1);
    time("script_20000_E", &engagements(&mut random), 20_000, [1, 101], &programs, &folder);
    let script = filings(&mut random, &folder);
    time("script_20000_F", &script, 250, [80, 21], &programs, &folder);
    fs::remove_dir_all(&folder).unwrap();
}
