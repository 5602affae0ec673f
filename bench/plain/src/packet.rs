//! Words, heads, routes, and the check of a packet.

use crate::refusal::Refusal;
use crate::wiring::{Side, Wiring};

pub const TAIL: u32 = 0x4000_0000;
pub const HEAD: u32 = 0x8000_0000;
pub const FLOOD: u32 = 0x2000_0000;
const KIND: u32 = 0xc000_0000;
const ROUTE: u32 = 0x1ff;

#[inline]
pub fn is_head(word: u32) -> bool {
    word & KIND == HEAD
}

#[inline]
pub fn is_tail(word: u32) -> bool {
    word & KIND == TAIL
}

#[inline]
pub fn floods(head: u32) -> bool {
    head & FLOOD != 0
}

/// The route's highest bit, which is read next.
#[inline]
pub fn top_bit(head: u32) -> bool {
    head & 0x100 != 0
}

/// No 1 is left in the route.
#[inline]
pub fn is_at_stop(head: u32) -> bool {
    head & ROUTE == 0
}

/// The head with its route moved up one bit.
#[inline]
pub fn advance(head: u32) -> u32 {
    head & !ROUTE | (head << 1) & ROUTE
}

/// The head of a packet that may be sent, as far as the packet alone tells.
pub fn check(packet: &[u32]) -> Result<u32, Refusal> {
    let [head, middle @ .., tail] = packet else {
        return Err(Refusal::of(6));
    };
    if middle.len() > 62 {
        return Err(Refusal::of(6));
    }
    let last = packet.len() - 1;
    if !is_head(*head) {
        return Err(Refusal::at(7, 0));
    }
    if let Some(place) = middle.iter().position(|word| word & KIND != 0) {
        return Err(Refusal::at(7, place + 1));
    }
    if !is_tail(*tail) {
        return Err(Refusal::at(7, last));
    }
    if head & 0x1fff_fe00 != 0 {
        return Err(Refusal::at(8, 0));
    }
    if packet[1] & 0x3fff_ff00 != 0 {
        return Err(Refusal::at(8, 1));
    }
    Ok(*head)
}

/// Where a route leads, and the stations on the way before the terminus's down stations.
pub struct Walk {
    pub terminus: usize,
    pub links: u32,
}

/// Walks the route of a head from a card.
pub fn walk(wiring: &Wiring, card: usize, head: u32) -> Result<Walk, Refusal> {
    // The route's bits stand at the top of the word.
    let route = head << 23;
    let ups = route.leading_ones();
    // Past the ups and the turn; with nine ups nothing is left.
    let mut rest = route.checked_shl(ups + 1).unwrap_or(0);
    if rest == 0 {
        return Err(Refusal::at(9, card));
    }
    let mut at = card;
    for _ in 0..ups {
        at = wiring.parent(at).ok_or(Refusal::at(10, 0))?;
    }
    let mut links = ups;
    while rest != 1 << 31 {
        let side = if rest >> 31 == 0 {
            Side::Left
        } else {
            Side::Right
        };
        at = wiring.daughter(at, side).ok_or(Refusal::at(11, at))?;
        rest <<= 1;
        links += 1;
    }
    Ok(Walk {
        terminus: at,
        links,
    })
}
