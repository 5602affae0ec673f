//! The tree's shape, kept as tables: daughters, parents and subtree sizes.

use crate::refusal::Refusal;

pub const MOST_CARDS: usize = 31;

/// No card.
pub const NONE: u8 = 255;

#[derive(Clone, Copy, Debug, PartialEq, Eq)]
pub enum Side {
    Left,
    Right,
}

/// A binary tree on the cards 0 to n - 1. The tables have a place for each five-bit number, so that a masked index needs no test.
#[derive(Clone)]
pub struct Wiring {
    cards: usize,
    daughters: [[u8; 2]; 32],
    parents: [u8; 32],
    sides: [Side; 32],
    subtrees: [u8; 32],
}

impl Wiring {
    /// The full tree of 1 to 5 levels.
    pub fn full(levels: u16) -> Result<Wiring, Refusal> {
        if !(1..=5).contains(&levels) {
            return Err(Refusal::of(1));
        }
        let cards = (1 << levels) - 1;
        let entry = |card: usize| if card < cards { card as u8 } else { NONE };
        let table: Vec<u8> = (0..cards)
            .flat_map(|card| [entry(2 * card + 1), entry(2 * card + 2)])
            .collect();
        Wiring::table(&table)
    }

    /// The tree that a table lists: a left and a right entry for each card in turn, where 255 means none.
    pub fn table(table: &[u8]) -> Result<Wiring, Refusal> {
        if table.is_empty() || table.len() > 2 * MOST_CARDS || !table.len().is_multiple_of(2) {
            return Err(Refusal::of(1));
        }
        let cards = table.len() / 2;
        let mut wiring = Wiring {
            cards,
            daughters: [[NONE; 2]; 32],
            parents: [NONE; 32],
            sides: [Side::Left; 32],
            subtrees: [0; 32],
        };
        for (place, &entry) in table.iter().enumerate() {
            let side = if place % 2 == 0 {
                Side::Left
            } else {
                Side::Right
            };
            if entry != NONE {
                wiring.link(place / 2, side, usize::from(entry))?;
            }
        }
        if wiring.parents[1..cards].contains(&NONE) {
            return Err(Refusal::of(2));
        }
        // Daughters have higher numbers, so each is counted before it is added to its parent.
        for card in (0..cards).rev() {
            wiring.subtrees[card] += 1;
            if card > 0 {
                let parent = usize::from(wiring.parents[card]);
                wiring.subtrees[parent] += wiring.subtrees[card];
            }
        }
        Ok(wiring)
    }

    /// A daughter is a card with a higher number that has no parent yet.
    fn link(&mut self, card: usize, side: Side, daughter: usize) -> Result<(), Refusal> {
        if daughter <= card || daughter >= self.cards || self.parents[daughter] != NONE {
            return Err(Refusal::of(2));
        }
        self.daughters[card][side as usize] = daughter as u8;
        self.parents[daughter] = card as u8;
        self.sides[daughter] = side;
        Ok(())
    }

    #[inline]
    pub fn cards(&self) -> usize {
        self.cards
    }

    /// The daughter of a card that is there.
    #[inline]
    pub fn daughter(&self, card: usize, side: Side) -> Option<usize> {
        let daughter = self.daughters[card & 31][side as usize];
        (daughter != NONE).then_some(usize::from(daughter))
    }

    /// The parent of a card that is there.
    #[inline]
    pub fn parent(&self, card: usize) -> Option<usize> {
        let parent = self.parents[card & 31];
        (parent != NONE).then_some(usize::from(parent))
    }

    /// The side of its parent on which a card is.
    #[inline]
    pub fn side(&self, card: usize) -> Side {
        self.sides[card & 31]
    }

    /// How many cards the subtree of a card has.
    #[inline]
    pub fn subtree(&self, card: usize) -> u32 {
        u32::from(self.subtrees[card & 31])
    }
}
