//! What is refused.

use crate::random::Random;
use crate::work::{Call, Work};
use crate::writer::{any_packet, packet, Writer, CARDS, HEAD, LONGEST, TAIL};

/// A tree that stands still: full inboxes, occupied links and held stations; so that each refusal of a fire can be had.
pub fn stuck(writer: &mut Writer, random: &mut Random) {
    let wiring = writer.tree.wiring().clone();
    for _ in 0..200 {
        for card in 0..CARDS {
            if let Some(packet) = any_packet(random, &wiring, card, LONGEST) {
                writer.send(card, &packet);
            }
        }
        writer.run();
    }
}

/// Of all fires, and of some that are never right, those that are refused.
pub fn refused_fires(random: &mut Random) -> Work {
    let mut writer = Writer::full("refused fires, numbers 5 and 13 to 17", "call");
    stuck(&mut writer, random);
    writer.start_clock();
    let mut by_number: Vec<Vec<Call>> = vec![Vec::new(); 32];
    for card in 0..CARDS + 2 {
        for station in 0..2 {
            for input in 0..5 {
                if let Err(refusal) = writer.try_fire(card, (station, input)) {
                    by_number[usize::from(refusal.number)].push(Call::Fire {
                        card,
                        station,
                        input,
                    });
                }
            }
        }
    }
    let kinds: Vec<&Vec<Call>> = by_number.iter().filter(|calls| !calls.is_empty()).collect();
    assert_eq!(kinds.len(), 6);
    for _ in 0..20_000 {
        let kind = kinds[random.below(kinds.len() as u64) as usize];
        let call = kind[random.below(kind.len() as u64) as usize];
        writer.calls.push(call);
    }
    let count = writer.calls.len() as u64;
    writer.done(count)
}

pub fn refused_sends(random: &mut Random) -> Work {
    let mut writer = Writer::full("refused sends, numbers 5 to 12", "call");
    for card in 0..CARDS {
        writer.send(card, &packet(random, HEAD | 0x80, 60));
    }
    writer.start_clock();
    for _ in 0..5_000 {
        let card = random.below(31) as u16;
        let len = 5 + random.below(20) as usize;
        let mut bad = packet(random, HEAD | 0x80, len);
        match random.below(8) {
            0 => {
                writer.send(31, &bad);
                continue;
            }
            1 => bad = vec![0; 65],
            2 => bad[len - 2] |= TAIL,
            3 => bad[1] |= 0x100,
            4 => bad[0] = HEAD | 0x1c0,
            5 => bad[0] = HEAD | 0x1f7,
            6 => bad[0] = HEAD | 0x03f,
            _ => {}
        }
        assert!(!writer.send(card, &bad));
    }
    let count = writer.calls.len() as u64;
    writer.done(count)
}

pub fn refused_takes(random: &mut Random) -> Work {
    let mut writer = Writer::full("refused takes, numbers 5 and 18", "call");
    for _ in 0..20_000 {
        writer.take(random.below(33) as u16);
    }
    let count = writer.calls.len() as u64;
    writer.done(count)
}
