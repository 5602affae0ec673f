//! What is carried: traffic, floods, sends and takes.

use crate::random::Random;
use crate::work::Work;
use crate::writer::{any_packet, packet, Writer, CARDS, FLOOD, INPUTS, LONGEST};
use plain::Wiring;

/// Every queue is kept full, the inputs of all cards are tried in an order of their own in each round, and every inbox is read.
pub fn traffic(
    name: &'static str,
    random: &mut Random,
    wiring: Wiring,
    longest: u64,
    keeps_refused: bool,
    calls: usize,
) -> Work {
    let mut writer = Writer::new(name, "granted hop", wiring.clone());
    writer.keeps_refused = keeps_refused;
    let cards = wiring.cards() as u16;
    let mut all: Vec<(u16, (u8, u8))> = (0..cards)
        .flat_map(|card| INPUTS.map(|input| (card, input)))
        .collect();
    while writer.calls.len() < calls {
        for card in 0..cards {
            if let Some(packet) = any_packet(random, &wiring, card, longest) {
                writer.send(card, &packet);
            }
        }
        for _ in 0..4 {
            for last in (1..all.len()).rev() {
                all.swap(last, random.below(last as u64 + 1) as usize);
            }
            for &(card, input) in &all {
                writer.fire(card, input);
            }
            for card in 0..cards {
                while writer.take(card) {}
            }
        }
    }
    let granted = writer.granted;
    writer.done(granted)
}

/// The table of a chain of right daughters, the even cards, with an odd one as a leaf to the left of each but the last.
pub fn chain() -> Vec<u8> {
    let mut table = vec![255; 62];
    for card in (0..29).step_by(2) {
        table[2 * card] = card as u8 + 1;
        table[2 * card + 1] = card as u8 + 2;
    }
    table
}

pub fn flood(random: &mut Random) -> Work {
    let mut writer = Writer::full("flood of 64 words to 31 cards, send to last take", "hop");
    writer.keeps_refused = false;
    for _ in 0..40 {
        let mut packet = packet(random, FLOOD | 0x80, 64);
        // Key 70: of the eight rules the fourth drops it at three cards, and elsewhere four are passed before the fifth covers.
        packet[1] = 70;
        writer.send(0, &packet);
        writer.run();
        for card in 0..CARDS {
            while writer.take(card) {}
        }
    }
    let granted = writer.granted;
    writer.done(granted)
}

pub fn takes(random: &mut Random) -> Work {
    let mut writer = Writer::full("granted takes", "take");
    writer.keeps_refused = false;
    for _ in 0..2 {
        let mut packet = packet(random, FLOOD | 0x80, 33);
        packet[1] = 200;
        writer.send(0, &packet);
        writer.run();
    }
    writer.start_clock();
    for _ in 0..64 {
        for card in 0..CARDS {
            writer.take(card);
        }
    }
    let count = writer.calls.len() as u64;
    writer.done(count)
}

pub fn sends(random: &mut Random) -> Work {
    let mut writer = Writer::full("granted sends, 2 to 24 words", "send");
    writer.keeps_refused = false;
    let wiring = writer.tree.wiring().clone();
    for _ in 0..40 {
        for card in 0..CARDS {
            if let Some(packet) = any_packet(random, &wiring, card, LONGEST) {
                writer.send(card, &packet);
            }
        }
    }
    let count = writer.calls.len() as u64;
    writer.done(count)
}
