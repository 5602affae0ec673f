//! The route maker.

use crate::packet::{FLOOD, HEAD};
use crate::refusal::Refusal;
use crate::wiring::{Side, Wiring};

/// The lowest card over both. A parent has a lower number, so the higher of the two goes up.
fn meet(wiring: &Wiring, mut a: usize, mut b: usize) -> usize {
    while a != b {
        let higher = if a > b { &mut a } else { &mut b };
        *higher = wiring.parent(*higher).unwrap_or(0);
    }
    a
}

/// The head of a packet from the sender to these cards.
pub fn order(wiring: &Wiring, sender: u16, cards: &[u16]) -> Result<u32, Refusal> {
    let n = wiring.cards();
    if usize::from(sender) >= n || cards.iter().any(|&card| usize::from(card) >= n) {
        return Err(Refusal::of(5));
    }
    let [first, others @ ..] = cards else {
        return Err(Refusal::of(19));
    };
    let terminus = others.iter().fold(usize::from(*first), |over, &card| {
        meet(wiring, over, usize::from(card))
    });
    let turn = meet(wiring, usize::from(sender), terminus);
    let mut ups = 0;
    let mut at = usize::from(sender);
    while at != turn {
        at = wiring.parent(at).unwrap_or(turn);
        ups += 1;
    }
    // The sides from the terminus up, the last of them lowest, and the stop below them.
    let mut downs = 0;
    let mut bits = 1;
    at = terminus;
    while at != turn {
        downs += 1;
        if wiring.side(at) == Side::Right {
            bits |= 1u64 << downs;
        }
        at = wiring.parent(at).unwrap_or(turn);
    }
    if ups + downs > 7 {
        return Err(Refusal::of(20));
    }
    let climb = 512 - (512 >> ups);
    let route = climb | (bits as u32) << (7 - ups - downs);
    let mode = if others.iter().all(|card| card == first) {
        0
    } else {
        FLOOD
    };
    Ok(HEAD | mode | route)
}
