//! The rows of the table.

use crate::random::Random;
use crate::refused::{refused_fires, refused_sends, refused_takes};
use crate::traffic::{chain, flood, sends, takes, traffic};
use crate::work::{Call, Work};
use crate::writer::{Writer, LONGEST};
use plain::Wiring;

fn orders(random: &mut Random) -> Work {
    let mut writer = Writer::full("route orders for 1 to 5 cards", "order");
    for _ in 0..10_000 {
        let at = writer.work.cards.len() as u32;
        let len = 1 + random.below(5) as u32;
        for _ in 0..len {
            writer.work.cards.push(random.below(31) as u16);
        }
        let sender = random.below(31) as u16;
        writer.calls.push(Call::Order { sender, at, len });
    }
    let count = writer.calls.len() as u64;
    writer.done(count)
}

fn set_ups() -> Work {
    let mut writer = Writer::full("set-ups: five levels, a table of 31 cards", "set-up");
    writer.work.table = chain();
    for _ in 0..20 {
        writer.calls.push(Call::SetFull { levels: 5 });
        writer.calls.push(Call::SetWired);
    }
    let count = writer.calls.len() as u64;
    writer.done(count)
}

/// All rows but the console's.
pub fn all() -> Vec<Work> {
    let mut random = Random::new(0x5eed_0001);
    let full = || Wiring::full(5).unwrap();
    let mut wired = traffic(
        "mixed traffic on a table's tree of 31 cards, every call",
        &mut random,
        Wiring::table(&chain()).unwrap(),
        LONGEST,
        true,
        200_000,
    );
    wired.table = chain();
    wired.before = vec![Call::SetWired];
    vec![
        traffic(
            "mixed traffic on 31 cards, every call",
            &mut random,
            full(),
            LONGEST,
            true,
            200_000,
        ),
        traffic(
            "mixed traffic on 31 cards, granted calls",
            &mut random,
            full(),
            LONGEST,
            false,
            200_000,
        ),
        wired,
        flood(&mut random),
        refused_fires(&mut random),
        refused_sends(&mut random),
        refused_takes(&mut random),
        takes(&mut random),
        sends(&mut random),
        orders(&mut random),
        set_ups(),
    ]
}
