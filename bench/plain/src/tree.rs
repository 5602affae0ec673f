//! The tree that runs.

use crate::packet::{advance, check, floods, is_at_stop, is_tail, top_bit, walk};
use crate::refusal::Refusal;
use crate::ring::Ring;
use crate::rules::{verdict, RangeRule, Verdict};
use crate::station::{merge, Fate, Hold, Input, Station, INBOX, LEFT, RIGHT, TURN, UP};
use crate::wiring::{Side, Wiring};

#[derive(Clone)]
struct Card {
    up_link: Option<u32>,
    turn_link: Option<u32>,
    down_link: Option<u32>,
    up: Option<Hold>,
    down: Option<Hold>,
    queue: Ring,
    inbox: Ring,
}

const BLANK: Card = Card {
    up_link: None,
    turn_link: None,
    down_link: None,
    up: None,
    down: None,
    queue: Ring::new(),
    inbox: Ring::new(),
};

/// Where a word waits.
#[derive(Clone, Copy)]
enum Source {
    Queue(usize),
    UpLink(usize),
    TurnLink(usize),
    DownLink(usize),
}

/// Cards by their number; a masked index needs no test.
pub struct Tree {
    wiring: Wiring,
    rules: Vec<RangeRule>,
    owed: u32,
    cards: [Card; 32],
}

impl Tree {
    /// An empty tree.
    pub fn new(wiring: Wiring, rules: Vec<RangeRule>) -> Tree {
        Tree {
            wiring,
            rules,
            owed: 0,
            cards: [BLANK; 32],
        }
    }

    pub fn wiring(&self) -> &Wiring {
        &self.wiring
    }

    #[inline]
    fn there(&self, card: u16) -> Result<usize, Refusal> {
        let card = usize::from(card);
        if card < self.wiring.cards() {
            Ok(card)
        } else {
            Err(Refusal::of(5))
        }
    }

    #[inline]
    fn card(&mut self, card: usize) -> &mut Card {
        &mut self.cards[card & 31]
    }

    /// Queues a whole packet at a card, or nothing.
    pub fn send(&mut self, card: u16, packet: &[u32]) -> Result<(), Refusal> {
        let c = self.there(card)?;
        let head = check(packet)?;
        let walk = walk(&self.wiring, c, head)?;
        let queue = &mut self.card(c).queue;
        if queue.len() + packet.len() > 64 {
            return Err(Refusal::of(12));
        }
        queue.push_all(packet);
        let reached = if floods(head) {
            self.wiring.subtree(walk.terminus)
        } else {
            1
        };
        self.owed += packet.len() as u32 * (walk.links + 1 + reached);
        Ok(())
    }

    /// Moves one word through one station; answers the outputs written as a sum.
    pub fn fire(&mut self, card: u16, station: Station, input: Input) -> Result<u8, Refusal> {
        let c = self.there(card)?;
        let source = self.source(c, station, input)?;
        let word = self.waiting(source).ok_or(Refusal::of(14))?;
        let sum = match station {
            Station::Up => self.fire_up(c, input, word)?,
            Station::Down => self.fire_down(c, input, word)?,
        };
        self.consume(source);
        self.owed -= 1;
        Ok(sum)
    }

    /// Removes and returns the oldest word of an inbox.
    pub fn take(&mut self, card: u16) -> Result<u32, Refusal> {
        let c = self.there(card)?;
        self.card(c).inbox.pop().ok_or(Refusal::of(18))
    }

    /// The hops owed.
    #[inline]
    pub fn owed(&self) -> u32 {
        self.owed
    }

    #[inline]
    fn source(&self, c: usize, station: Station, input: Input) -> Result<Source, Refusal> {
        let source = match (station, input) {
            (Station::Up, Input::Left) => self.wiring.daughter(c, Side::Left).map(Source::UpLink),
            (Station::Up, Input::Right) => self.wiring.daughter(c, Side::Right).map(Source::UpLink),
            (Station::Up, Input::Queue) => Some(Source::Queue(c)),
            (Station::Down, Input::Parent) => (c != 0).then_some(Source::DownLink(c)),
            (Station::Down, Input::Turn) => Some(Source::TurnLink(c)),
            _ => None,
        };
        source.ok_or(Refusal::of(13))
    }

    #[inline]
    fn waiting(&mut self, source: Source) -> Option<u32> {
        match source {
            Source::Queue(c) => self.card(c).queue.oldest(),
            Source::UpLink(c) => self.card(c).up_link,
            Source::TurnLink(c) => self.card(c).turn_link,
            Source::DownLink(c) => self.card(c).down_link,
        }
    }

    #[inline]
    fn consume(&mut self, source: Source) {
        match source {
            Source::Queue(c) => self.card(c).queue.drop_oldest(),
            Source::UpLink(c) => self.card(c).up_link = None,
            Source::TurnLink(c) => self.card(c).turn_link = None,
            Source::DownLink(c) => self.card(c).down_link = None,
        }
    }

    #[inline]
    fn fire_up(&mut self, c: usize, input: Input, word: u32) -> Result<u8, Refusal> {
        let card = self.card(c);
        let (hold, word) = match merge(card.up, input, word)? {
            Some(hold) => (hold, word),
            None => {
                let links = if top_bit(word) { UP } else { TURN };
                let fate = Fate::Onward;
                (Hold { input, links, fate }, advance(word))
            }
        };
        let link = if hold.links == UP {
            &mut card.up_link
        } else {
            &mut card.turn_link
        };
        if link.is_some() {
            return Err(Refusal::of(16));
        }
        *link = Some(word);
        card.up = if is_tail(word) { None } else { Some(hold) };
        Ok(hold.links)
    }

    #[inline]
    fn fire_down(&mut self, c: usize, input: Input, word: u32) -> Result<u8, Refusal> {
        match merge(self.card(c).down, input, word)? {
            None => {
                let moved = advance(word);
                let hold = self.hold_for(c, input, top_bit(word), moved);
                self.write(c, hold.links, moved, None)?;
                self.card(c).down = Some(hold);
                Ok(hold.links)
            }
            Some(hold) => self.follow(c, hold, word),
        }
    }

    /// How a head holds the down station: its links, and what becomes of the packet here.
    #[inline]
    fn hold_for(&self, c: usize, input: Input, top: bool, moved: u32) -> Hold {
        let (links, fate) = match (is_at_stop(moved), floods(moved)) {
            (true, true) => (self.all_below(c), Fate::Flood),
            (true, false) => (0, Fate::Target),
            (false, _) if top => (RIGHT, Fate::Onward),
            (false, _) => (LEFT, Fate::Onward),
        };
        Hold { input, links, fate }
    }

    /// The links to all daughters present.
    #[inline]
    fn all_below(&self, c: usize) -> u8 {
        let left = self.wiring.daughter(c, Side::Left).map_or(0, |_| LEFT);
        let right = self.wiring.daughter(c, Side::Right).map_or(0, |_| RIGHT);
        left | right
    }

    /// A later word goes where its head went; at the key word the packet's fate here is found.
    #[inline]
    fn follow(&mut self, c: usize, mut hold: Hold, word: u32) -> Result<u8, Refusal> {
        let kept = match hold.fate {
            Fate::Onward | Fate::Dropped => None,
            Fate::Kept | Fate::Target => Some(word),
            Fate::Flood => match verdict(&self.rules, c as u16, word as u8) {
                Verdict::Refuse => None,
                Verdict::Class(class) => Some(word | u32::from(class) << 28),
            },
        };
        self.write(c, hold.links, word, kept)?;
        if hold.fate != Fate::Onward {
            hold.fate = kept.map_or(Fate::Dropped, |_| Fate::Kept);
        }
        self.card(c).down = if is_tail(word) { None } else { Some(hold) };
        Ok(hold.links | kept.map_or(0, |_| INBOX))
    }

    /// Writes a word to the daughters' links named and the kept word to the inbox, all together or none.
    #[inline]
    fn write(&mut self, c: usize, links: u8, word: u32, kept: Option<u32>) -> Result<(), Refusal> {
        for (link, side) in [(LEFT, Side::Left), (RIGHT, Side::Right)] {
            let daughter = self.wiring.daughter(c, side).unwrap_or(0);
            if links & link != 0 && self.card(daughter).down_link.is_some() {
                return Err(Refusal::of(16));
            }
        }
        if let Some(kept) = kept {
            let inbox = &mut self.card(c).inbox;
            if inbox.is_full() {
                return Err(Refusal::of(17));
            }
            inbox.push(kept);
        }
        for (link, side) in [(LEFT, Side::Left), (RIGHT, Side::Right)] {
            let daughter = self.wiring.daughter(c, side).unwrap_or(0);
            if links & link != 0 {
                self.card(daughter).down_link = Some(word);
            }
        }
        Ok(())
    }
}
