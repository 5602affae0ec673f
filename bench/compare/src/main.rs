//! The proved router beside the plain one: the same seeded calls, by the same C interface, in one process.
//!
//! `compare`: the table. `compare --counts`: with instruction counts by callgrind too. `compare --one NAME ROW`: one router's run of one
//! row, for callgrind.

mod calls;
mod console;
mod counts;
mod decks;
mod play;
mod random;
mod refused;
mod rows;
mod traffic;
mod work;
mod writer;

use calls::{Plain, Proved, Router};
use play::run;
use std::time::Duration;
use work::Work;

/// How often a row is timed; the shortest time counts.
const REPEATS: usize = 40;

fn main() {
    let args: Vec<String> = std::env::args().skip(1).collect();
    match args.iter().map(String::as_str).collect::<Vec<_>>()[..] {
        [] => table(false),
        ["--counts"] => table(true),
        ["--one", name, row] => one(name, row),
        _ => {
            eprintln!("usage: compare [--counts]");
            std::process::exit(2);
        }
    }
}

fn table(with_counts: bool) {
    let works = rows::all();
    for work in &works {
        compare(work);
    }
    println!("Answers: {} rows agree word for word.", works.len());
    println!();
    println!(
        "| Row | Unit | Plain, ns | Proved, ns | Plain / proved |{}",
        if with_counts {
            " Plain, instructions | Proved, instructions | Plain / proved |"
        } else {
            ""
        }
    );
    println!(
        "|---|---|---|---|---|{}",
        if with_counts { "---|---|---|" } else { "" }
    );
    for (row, work) in works.iter().enumerate() {
        let (plain, proved) = times(work);
        let per = |time: Duration| time.as_secs_f64() * 1e9 / work.units as f64;
        print!(
            "| {} | {} | {:.2} | {:.2} | {:.2} |",
            work.name,
            work.unit,
            per(plain),
            per(proved),
            plain.as_secs_f64() / proved.as_secs_f64()
        );
        if with_counts {
            let count = |name| counts::of(name, row) as f64 / work.units as f64;
            let (plain, proved) = (count(Plain::NAME), count(Proved::NAME));
            print!(" {plain:.1} | {proved:.1} | {:.2} |", plain / proved);
        }
        println!();
    }
    println!();
    console::compare();
}

/// Both routers play the work, and each answer of one is that of the other.
fn compare(work: &Work) {
    let (mut plain, mut proved) = (Vec::new(), Vec::new());
    run::<Plain>(work, &mut plain);
    run::<Proved>(work, &mut proved);
    if let Some(place) = (0..plain.len()).find(|&place| plain[place] != proved[place]) {
        eprintln!(
            "{}: answer {place} of {} is {:x} of the plain router and {:x} of the proved one",
            work.name,
            plain.len(),
            plain[place],
            proved[place]
        );
        std::process::exit(1);
    }
}

/// The shortest time of each router, which take turns in going first.
fn times(work: &Work) -> (Duration, Duration) {
    let mut answers = Vec::new();
    let (mut plain, mut proved) = (Duration::MAX, Duration::MAX);
    for turn in 0..REPEATS {
        if turn % 2 == 0 {
            plain = plain.min(run::<Plain>(work, &mut answers));
            proved = proved.min(run::<Proved>(work, &mut answers));
        } else {
            proved = proved.min(run::<Proved>(work, &mut answers));
            plain = plain.min(run::<Plain>(work, &mut answers));
        }
    }
    (plain, proved)
}

fn one(name: &str, row: &str) {
    let works = rows::all();
    let work = &works[row.parse::<usize>().expect("a row's number")];
    let mut answers = Vec::new();
    if name == Plain::NAME {
        run::<Plain>(work, &mut answers);
    } else {
        run::<Proved>(work, &mut answers);
    }
}
