//! The two consoles on the same deck, each a process of its own with a file as its input.

use crate::decks::{self, Deck};
use std::fs::File;
use std::path::{Path, PathBuf};
use std::process::{Command, Stdio};
use std::time::{Duration, Instant};

const REPEATS: usize = 10;

/// The program's answers, a line for each of the deck's, and how long they took.
fn run(program: &Path, deck: &Path, lines: usize) -> (Vec<u8>, Duration) {
    let input = File::open(deck).expect("the deck opens");
    let start = Instant::now();
    let ran = Command::new(program)
        .stdin(input)
        .stderr(Stdio::inherit())
        .output()
        .unwrap_or_else(|error| panic!("{}: {error}", program.display()));
    let took = start.elapsed();
    let shown = program.display();
    assert!(ran.status.success(), "{shown}: {}", ran.status);
    assert_eq!(lines_in(&ran.stdout), lines, "{shown}: answers, and lines");
    (ran.stdout, took)
}

fn lines_in(text: &[u8]) -> usize {
    text.iter().filter(|&&byte| byte == b'\n').count()
}

/// The plain console stands beside this program; where the proved one is, the environment says.
pub fn compare() {
    let me = std::env::current_exe().expect("the program's own path");
    let plain = me.with_file_name("plain-console");
    let Some(proved) = std::env::var_os("ZELATIGBO_CONSOLE").map(PathBuf::from) else {
        println!("No proved console is built, so the consoles are not compared.");
        return;
    };
    println!("| Deck | Lines | Plain, lines a second | Proved, lines a second | Proved / plain |");
    println!("|---|---|---|---|---|");
    for Deck { name, text } in decks::all() {
        let deck = std::env::temp_dir().join(format!("deck-{}", std::process::id()));
        std::fs::write(&deck, &text).expect("the deck is written");
        let lines = lines_in(&text);
        let (answers, _) = run(&plain, &deck, lines);
        if answers != run(&proved, &deck, lines).0 {
            eprintln!("{name}: the consoles' outputs differ");
            std::process::exit(1);
        }
        assert!(
            !answers
                .split(|&byte| byte == b'\n')
                .any(|line| line == b"no 21"),
            "{name}: a line is not understood"
        );
        let (mut plain_time, mut proved_time) = (Duration::MAX, Duration::MAX);
        for turn in 0..2 * REPEATS {
            let (program, least) = if turn % 2 == 0 {
                (&plain, &mut plain_time)
            } else {
                (&proved, &mut proved_time)
            };
            *least = (*least).min(run(program, &deck, lines).1);
        }
        let _ = std::fs::remove_file(&deck);
        let a_second = |time: Duration| lines as f64 / time.as_secs_f64();
        println!(
            "| {name} | {lines} | {:.0} | {:.0} | {:.2} |",
            a_second(plain_time),
            a_second(proved_time),
            plain_time.as_secs_f64() / proved_time.as_secs_f64()
        );
    }
}
