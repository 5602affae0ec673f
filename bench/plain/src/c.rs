//! The plain router behind the same C calls as the proved one: a tree in memory of the caller's, and one number as the answer.
//!
//! # Safety
//!
//! Each pointer to a tree is one that `plain_begin` has been called on, and each other pointer is followed by as many items as the length
//! beside it says.

#![allow(clippy::missing_safety_doc)]

use crate::{order, Input, RangeRule, Refusal, Station, Tree, Verdict, Wiring};
use std::slice::from_raw_parts;

/// A rule for the cards and the keys from low to high; the class is 0 to 3, or 255 for 'refuse'.
#[repr(C)]
pub struct RuleLine {
    pub low_card: u16,
    pub high_card: u16,
    pub low_key: u8,
    pub high_key: u8,
    pub class: u8,
}

impl RuleLine {
    pub fn rule(&self) -> Result<RangeRule, Refusal> {
        let verdict = match self.class {
            255 => Verdict::Refuse,
            class => Verdict::Class(class),
        };
        RangeRule::new(
            (self.low_card, self.high_card),
            (self.low_key, self.high_key),
            verdict,
        )
    }
}

/// What is granted, or the refusal: its number from bit 32 up, bit 40 where it has a place, and the place below.
#[inline]
fn told(answer: Result<u32, Refusal>) -> u64 {
    match answer {
        Ok(value) => u64::from(value),
        Err(Refusal { number, place }) => {
            u64::from(number) << 32 | place.map_or(0, |place| 1 << 40 | u64::from(place))
        }
    }
}

fn set_up(wiring: Result<Wiring, Refusal>, lines: &[RuleLine]) -> Result<Tree, Refusal> {
    let wiring = wiring?;
    let mut rules = Vec::new();
    for line in lines {
        let rule = line.rule()?;
        if rules.len() == crate::rules::MOST_RULES {
            return Err(Refusal::of(4));
        }
        rules.push(rule);
    }
    Ok(Tree::new(wiring, rules))
}

fn replace(tree: &mut Tree, made: Result<Tree, Refusal>) -> u64 {
    told(made.map(|made| {
        *tree = made;
        0
    }))
}

/// There is no station or no input of that number, the room is too small, or the pointer to the tree is null.
const NO_STATION: u64 = 101 << 32;
const NO_INPUT: u64 = 102 << 32;
const NO_ROOM: u64 = 103 << 32;
const NO_TREE: u64 = 104 << 32;

/// How many bytes a tree takes, aligned to 8.
#[no_mangle]
pub extern "C" fn plain_bytes() -> usize {
    std::mem::size_of::<Tree>()
}

/// Writes the tree of one card and no rules.
#[no_mangle]
pub unsafe extern "C" fn plain_begin(room: *mut Tree, bytes: usize) -> u64 {
    if bytes < plain_bytes() {
        return NO_ROOM;
    }
    if room.is_null() {
        return NO_TREE;
    }
    match Wiring::full(1) {
        Ok(wiring) => room.write(Tree::new(wiring, Vec::new())),
        Err(refusal) => return told(Err(refusal)),
    }
    0
}

/// Lets go of what a tree holds.
#[no_mangle]
pub unsafe extern "C" fn plain_end(tree: *mut Tree) {
    tree.drop_in_place();
}

#[no_mangle]
pub unsafe extern "C" fn plain_full(
    tree: *mut Tree,
    levels: u16,
    lines: *const RuleLine,
    count: usize,
) -> u64 {
    let Some(tree) = tree.as_mut() else {
        return NO_TREE;
    };
    let made = set_up(Wiring::full(levels), from_raw_parts(lines, count));
    replace(tree, made)
}

#[no_mangle]
pub unsafe extern "C" fn plain_wired(
    tree: *mut Tree,
    table: *const u8,
    len: usize,
    lines: *const RuleLine,
    count: usize,
) -> u64 {
    let Some(tree) = tree.as_mut() else {
        return NO_TREE;
    };
    let wiring = Wiring::table(from_raw_parts(table, len));
    replace(tree, set_up(wiring, from_raw_parts(lines, count)))
}

#[no_mangle]
pub unsafe extern "C" fn plain_send(
    tree: *mut Tree,
    card: u16,
    packet: *const u32,
    len: usize,
) -> u64 {
    let Some(tree) = tree.as_mut() else {
        return NO_TREE;
    };
    told(tree.send(card, from_raw_parts(packet, len)).map(|()| 0))
}

/// Stations: 0 up, 1 down. Inputs: 0 left, 1 right, 2 queue, 3 parent, 4 turn.
#[no_mangle]
pub unsafe extern "C" fn plain_fire(tree: *mut Tree, card: u16, station: u8, input: u8) -> u64 {
    let Some(tree) = tree.as_mut() else {
        return NO_TREE;
    };
    let station = match station {
        0 => Station::Up,
        1 => Station::Down,
        _ => return NO_STATION,
    };
    let input = match input {
        0 => Input::Left,
        1 => Input::Right,
        2 => Input::Queue,
        3 => Input::Parent,
        4 => Input::Turn,
        _ => return NO_INPUT,
    };
    told(tree.fire(card, station, input).map(u32::from))
}

#[no_mangle]
pub unsafe extern "C" fn plain_take(tree: *mut Tree, card: u16) -> u64 {
    let Some(tree) = tree.as_mut() else {
        return NO_TREE;
    };
    told(tree.take(card))
}

#[no_mangle]
pub unsafe extern "C" fn plain_owed(tree: *const Tree) -> u64 {
    let Some(tree) = tree.as_ref() else {
        return NO_TREE;
    };
    u64::from(tree.owed())
}

#[no_mangle]
pub unsafe extern "C" fn plain_order(
    tree: *const Tree,
    sender: u16,
    cards: *const u16,
    len: usize,
) -> u64 {
    let Some(tree) = tree.as_ref() else {
        return NO_TREE;
    };
    told(order(tree.wiring(), sender, from_raw_parts(cards, len)))
}
