//! Decks for the consoles.

use crate::random::Random;
use crate::traffic::traffic;
use crate::work::{Call, Work};
use plain::Wiring;

/// Lines for the consoles.
pub struct Deck {
    pub name: &'static str,
    pub text: Vec<u8>,
}

/// A route as letters: the ups, the turn, the sides, the stop.
fn letters(head: u32) -> String {
    let bits: Vec<bool> = (0..9).rev().map(|place| head >> place & 1 == 1).collect();
    let ups = bits.iter().take_while(|bit| **bit).count();
    let stop = bits.iter().rposition(|bit| *bit).unwrap_or(0);
    let letter = |(place, bit): (usize, &bool)| match (place, bit) {
        _ if place == stop => 'S',
        _ if place < ups => 'U',
        _ if place == ups => 'D',
        (_, false) => 'L',
        (_, true) => 'R',
    };
    bits.iter().enumerate().take(stop + 1).map(letter).collect()
}

/// A call as a line.
fn line_of(work: &Work, call: Call) -> String {
    match call {
        Call::Send { card, at, len } => {
            let words = &work.words[at as usize..(at + len) as usize];
            let mode = if words[0] & 0x2000_0000 == 0 {
                'T'
            } else {
                'F'
            };
            let route = letters(words[0]);
            let mut line = format!("send {card} {mode} {route} {:02x}", words[1] & 0xff);
            for word in &words[2..] {
                line += &format!(" {:x}", word & 0x3fff_ffff);
            }
            line
        }
        Call::Fire {
            card,
            station,
            input,
        } => {
            let station = ['u', 'd'][usize::from(station)];
            let input = ['l', 'r', 'q', 'p', 't'][usize::from(input)];
            format!("fire {card} {station} {input}")
        }
        Call::Take { card } => format!("take {card}"),
        // No deck has the others.
        _ => "owed".into(),
    }
}

/// A line of so many words always fits into the bytes that a console reads.
const LONGEST: u64 = 21;

/// The traffic of the first two rows, in packets that fit into lines.
pub fn all() -> Vec<Deck> {
    let mut random = Random::new(0x5eed_0002);
    let full = || Wiring::full(5).unwrap();
    let works = [
        traffic(
            "mixed traffic, every call",
            &mut random,
            full(),
            LONGEST,
            true,
            300_000,
        ),
        traffic(
            "mixed traffic, granted calls",
            &mut random,
            full(),
            LONGEST,
            false,
            300_000,
        ),
    ];
    works
        .into_iter()
        .map(|work| {
            let mut text = String::from("tree 5\n");
            for rule in &work.rules {
                let verdict = match rule.class {
                    255 => "n".into(),
                    class => class.to_string(),
                };
                text += &format!(
                    "rule {} {} {:02x} {:02x} {verdict}\n",
                    rule.low_card, rule.high_card, rule.low_key, rule.high_key
                );
            }
            text += "go\n";
            for &call in &work.timed {
                text += &line_of(&work, call);
                text.push('\n');
            }
            Deck {
                name: work.name,
                text: text.into_bytes(),
            }
        })
        .collect()
}
