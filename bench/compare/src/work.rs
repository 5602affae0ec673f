//! A work: calls that both routers play.

use plain::c::RuleLine;

/// One call, as the C interface takes it. Packets and card lists stand in the work's pools.
#[derive(Clone, Copy)]
pub enum Call {
    SetFull { levels: u16 },
    SetWired,
    Send { card: u16, at: u32, len: u32 },
    Fire { card: u16, station: u8, input: u8 },
    Take { card: u16 },
    Order { sender: u16, at: u32, len: u32 },
}

/// Calls that are made before the clock starts, and those that are timed.
pub struct Work {
    pub name: &'static str,
    /// What one of the units is.
    pub unit: &'static str,
    pub units: u64,
    pub table: Vec<u8>,
    pub rules: Vec<RuleLine>,
    pub words: Vec<u32>,
    pub cards: Vec<u16>,
    pub before: Vec<Call>,
    pub timed: Vec<Call>,
}
