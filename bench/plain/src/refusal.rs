//! Why a call is refused.

/// The number of a refusal, and its place where it has one.
#[derive(Clone, Copy, Debug, PartialEq, Eq)]
pub struct Refusal {
    pub number: u8,
    pub place: Option<u16>,
}

impl Refusal {
    pub const fn of(number: u8) -> Refusal {
        Refusal {
            number,
            place: None,
        }
    }

    pub fn at(number: u8, place: usize) -> Refusal {
        Refusal {
            number,
            place: Some(place as u16),
        }
    }
}
