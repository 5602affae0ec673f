//! The stations of a card, and how a station stands.

use crate::packet::is_head;
use crate::refusal::Refusal;

#[derive(Clone, Copy, Debug, PartialEq, Eq)]
pub enum Station {
    Up,
    Down,
}

#[derive(Clone, Copy, Debug, PartialEq, Eq)]
pub enum Input {
    Left,
    Right,
    Queue,
    Parent,
    Turn,
}

/// The outputs, as they stand in the sum that a fire answers.
pub const UP: u8 = 1;
pub const TURN: u8 = 2;
pub const LEFT: u8 = 4;
pub const RIGHT: u8 = 8;
pub const INBOX: u8 = 16;

/// What becomes of a packet's words at the card itself.
#[derive(Clone, Copy, Debug, PartialEq, Eq)]
pub enum Fate {
    /// They only go on.
    Onward,
    /// The next word is the key word of a targeted packet that stops here.
    Target,
    /// The next word is the key word of a flood that stops here.
    Flood,
    Kept,
    Dropped,
}

/// A station that is held: for which input, to which links its words go, and what becomes of them here.
#[derive(Clone, Copy, Debug)]
pub struct Hold {
    pub input: Input,
    pub links: u8,
    pub fate: Fate,
}

/// The hold under which a word passes, or none for a head at a free station.
#[inline]
pub fn merge(hold: Option<Hold>, input: Input, word: u32) -> Result<Option<Hold>, Refusal> {
    match hold {
        Some(held) if held.input != input => Err(Refusal::of(15)),
        _ if is_head(word) == hold.is_some() => Err(Refusal::of(14)),
        _ => Ok(hold),
    }
}
