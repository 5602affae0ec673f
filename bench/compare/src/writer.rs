//! Writing a work down, with a plain tree that plays along.

use crate::random::Random;
use crate::work::{Call, Work};
use plain::c::RuleLine;
use plain::{order, Input, Refusal, Station, Tree, Wiring};

pub const CARDS: u16 = 31;
pub const HEAD: u32 = 0x8000_0000;
pub const FLOOD: u32 = 0xa000_0000;
pub const TAIL: u32 = 0x4000_0000;

/// The most words of a packet, where nothing asks for fewer.
pub const LONGEST: u64 = 24;

/// The station and the input of each fire that a card may have.
pub const INPUTS: [(u8, u8); 5] = [(0, 0), (0, 1), (0, 2), (1, 3), (1, 4)];

fn line(cards: (u16, u16), keys: (u8, u8), class: u8) -> RuleLine {
    RuleLine {
        low_card: cards.0,
        high_card: cards.1,
        low_key: keys.0,
        high_key: keys.1,
        class,
    }
}

/// Eight rules, so that a question passes some before one covers.
fn rules() -> Vec<RuleLine> {
    vec![
        line((0, 0), (0, 15), 255),
        line((1, 14), (16, 63), 1),
        line((15, 30), (16, 63), 2),
        line((7, 9), (64, 255), 255),
        line((0, 30), (64, 127), 3),
        line((0, 6), (128, 191), 0),
        line((20, 30), (128, 191), 255),
        line((0, 30), (192, 255), 1),
    ]
}

/// A work that is being written, with a plain tree that plays along and tells what is granted.
pub struct Writer {
    pub work: Work,
    pub tree: Tree,
    pub calls: Vec<Call>,
    /// Whether refused calls are written too.
    pub keeps_refused: bool,
    pub granted: u64,
}

impl Writer {
    pub fn new(name: &'static str, unit: &'static str, wiring: Wiring) -> Writer {
        let rules = rules();
        let made = rules.iter().map(|line| line.rule().unwrap()).collect();
        Writer {
            work: Work {
                name,
                unit,
                units: 0,
                table: Vec::new(),
                rules,
                words: Vec::new(),
                cards: Vec::new(),
                before: Vec::new(),
                timed: Vec::new(),
            },
            tree: Tree::new(wiring, made),
            calls: Vec::new(),
            keeps_refused: true,
            granted: 0,
        }
    }

    pub fn full(name: &'static str, unit: &'static str) -> Writer {
        Writer::new(name, unit, Wiring::full(5).unwrap())
    }

    pub fn write(&mut self, call: Call, is_granted: bool) {
        if is_granted || self.keeps_refused {
            self.calls.push(call);
        }
    }

    pub fn send(&mut self, card: u16, packet: &[u32]) -> bool {
        let is_granted = self.tree.send(card, packet).is_ok();
        let at = self.work.words.len() as u32;
        let len = packet.len() as u32;
        if is_granted || self.keeps_refused {
            self.work.words.extend_from_slice(packet);
        }
        self.write(Call::Send { card, at, len }, is_granted);
        is_granted
    }

    /// Fires on the plain tree alone.
    pub fn try_fire(&mut self, card: u16, (station, input): (u8, u8)) -> Result<u8, Refusal> {
        let station = [Station::Up, Station::Down][usize::from(station)];
        let input = [
            Input::Left,
            Input::Right,
            Input::Queue,
            Input::Parent,
            Input::Turn,
        ][usize::from(input)];
        self.tree.fire(card, station, input)
    }

    pub fn fire(&mut self, card: u16, (station, input): (u8, u8)) -> bool {
        let is_granted = self.try_fire(card, (station, input)).is_ok();
        self.granted += u64::from(is_granted);
        let call = Call::Fire {
            card,
            station,
            input,
        };
        self.write(call, is_granted);
        is_granted
    }

    pub fn take(&mut self, card: u16) -> bool {
        let is_granted = self.tree.take(card).is_ok();
        self.write(Call::Take { card }, is_granted);
        is_granted
    }

    /// Fires all inputs, the cards in falling order, until no hops are owed or nothing moves.
    pub fn run(&mut self) {
        loop {
            let before = self.tree.owed();
            for card in (0..CARDS).rev() {
                for input in INPUTS {
                    self.fire(card, input);
                }
            }
            if self.tree.owed() == before {
                return;
            }
        }
    }

    /// All calls so far come before the clock starts.
    pub fn start_clock(&mut self) {
        self.work.before = std::mem::take(&mut self.calls);
        self.granted = 0;
    }

    pub fn done(mut self, units: u64) -> Work {
        self.work.units = units;
        self.work.timed = self.calls;
        self.work
    }
}

pub fn packet(random: &mut Random, head: u32, len: usize) -> Vec<u32> {
    let mut packet = vec![head, random.below(256) as u32];
    while packet.len() < len {
        packet.push(random.next() as u32 & 0x3fff_ffff);
    }
    packet[len - 1] |= TAIL;
    packet
}

/// A packet of at most so many words to one card, or to three.
pub fn any_packet(
    random: &mut Random,
    wiring: &Wiring,
    sender: u16,
    longest: u64,
) -> Option<Vec<u32>> {
    let count = if random.below(4) == 0 { 3 } else { 1 };
    let cards: Vec<u16> = (0..count).map(|_| random.below(31) as u16).collect();
    let head = order(wiring, sender, &cards).ok()?;
    let len = 2 + random.below(longest - 1) as usize;
    Some(packet(random, head, len))
}
