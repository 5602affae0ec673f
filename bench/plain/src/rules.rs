//! Range rules, the first of which that covers decides.

use crate::refusal::Refusal;

pub const MOST_RULES: usize = 64;

#[derive(Clone, Copy, Debug, PartialEq, Eq)]
pub enum Verdict {
    Refuse,
    Class(u8),
}

/// A rule for a span of cards and a span of keys, both ends counted.
#[derive(Clone, Copy, Debug)]
pub struct RangeRule {
    low_card: u16,
    high_card: u16,
    low_key: u8,
    high_key: u8,
    verdict: Verdict,
}

impl RangeRule {
    pub fn new(cards: (u16, u16), keys: (u8, u8), verdict: Verdict) -> Result<RangeRule, Refusal> {
        let known = match verdict {
            Verdict::Refuse => true,
            Verdict::Class(class) => class <= 3,
        };
        if cards.0 > cards.1 || keys.0 > keys.1 || !known {
            return Err(Refusal::of(3));
        }
        Ok(RangeRule {
            low_card: cards.0,
            high_card: cards.1,
            low_key: keys.0,
            high_key: keys.1,
            verdict,
        })
    }

    #[inline]
    fn covers(&self, card: u16, key: u8) -> bool {
        (self.low_card..=self.high_card).contains(&card)
            && (self.low_key..=self.high_key).contains(&key)
    }
}

/// What the rules say of this card and key.
#[inline]
pub fn verdict(rules: &[RangeRule], card: u16, key: u8) -> Verdict {
    rules
        .iter()
        .find(|rule| rule.covers(card, key))
        .map_or(Verdict::Refuse, |rule| rule.verdict)
}
