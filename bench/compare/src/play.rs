//! Playing a work on a router, by its C calls.

use crate::calls::{Held, Router};
use crate::work::{Call, Work};
use std::time::{Duration, Instant};

fn play<R: Router>(tree: *mut u8, work: &Work, calls: &[Call], answers: &mut [u64]) {
    for (call, answer) in calls.iter().zip(answers) {
        *answer = unsafe {
            match *call {
                Call::Fire {
                    card,
                    station,
                    input,
                } => R::fire(tree, card, station, input),
                Call::Send { card, at, len } => {
                    R::send(tree, card, &work.words[at as usize..(at + len) as usize])
                }
                Call::Take { card } => R::take(tree, card),
                Call::Order { sender, at, len } => {
                    R::order(tree, sender, &work.cards[at as usize..(at + len) as usize])
                }
                Call::SetFull { levels } => R::set_full(tree, levels, &work.rules),
                Call::SetWired => R::set_wired(tree, &work.table, &work.rules),
            }
        };
    }
}

/// What is timed runs in here, so that callgrind can count just that.
#[no_mangle]
#[inline(never)]
pub fn bench_timed(run: &mut dyn FnMut()) {
    run();
}

/// One run on a new tree: how long the timed calls took. The answers, of the calls before the clock too, are left in `answers`.
pub fn run<R: Router>(work: &Work, answers: &mut Vec<u64>) -> Duration {
    let mut held = Held::<R>::new();
    let tree = held.at();
    answers.clear();
    answers.resize(work.before.len() + work.timed.len() + 1, 0);
    let (before, timed) = answers.split_at_mut(work.before.len());
    assert_eq!(unsafe { R::set_full(tree, 5, &work.rules) }, 0);
    play::<R>(tree, work, &work.before, before);
    let start = Instant::now();
    bench_timed(&mut || play::<R>(tree, work, &work.timed, timed));
    let took = start.elapsed();
    timed[work.timed.len()] = unsafe { R::owed(tree) };
    took
}
