//! Random messages that paper 01 takes ("Sheets" and "Message bytes"), of every
//! kind and size, up to the longest of 1,111 bytes; and the one step that turns
//! a ledger light. Ledgers are built of gifts above the floor and of rings, in
//! which each server gives the next the same, so that no weight changes.

use crate::format::{Kind, Message, Register, MOST_PER_TRANSFER};
use crate::random::Random;
use crate::weights::{Config, Ledger, MOST};

/// The most that a row can total: the largest count, each transfer the largest.
const MOST_IN_ROW: u64 = MOST_PER_TRANSFER * u16::MAX as u64;

/// Room for a register's value.
pub type ValueRoom = [u8; 64];

/// A message that passes in the cluster.
pub fn message<'a>(random: &mut Random, config: Config, room: &'a mut ValueRoom) -> Message<'a> {
    let kind = *random.pick(&[Kind::Request, Kind::Reply, Kind::Share]);
    let of_desk = kind != Kind::Share;
    random.fill(room);
    let length = match random.below(4) {
        0 => 0,
        1 => 64,
        _ => random.index(65),
    };
    let register = Register {
        stamp: random.from_one(u32::MAX.into()) as u32,
        desk: random.from_one(u16::MAX.into()) as u16,
        value: &room[..length],
    };
    Message {
        kind,
        server: random.index(config.n()) as u8,
        desk: of_desk.then(|| random.from_one(u16::MAX.into()) as u16),
        round: of_desk.then(|| random.from_one(u32::MAX.into()) as u32),
        register: (!random.one_in(3)).then_some(register),
        ledger: ledger(random, config),
        note: (of_desk && random.one_in(2)).then(|| random.from_one(u32::MAX.into()) as u32),
    }
}

/// A message of the cluster's greatest length, with every field and every cell:
/// 1,111 bytes for 16 servers.
pub fn longest<'a>(random: &mut Random, config: Config, room: &'a mut ValueRoom) -> Message<'a> {
    let mut ledger = Ledger::FRESH;
    add_all_cells(random, config, &mut ledger);
    add_counts(random, &mut ledger);
    random.fill(room);
    Message {
        kind: *random.pick(&[Kind::Request, Kind::Reply]),
        server: random.index(config.n()) as u8,
        desk: Some(random.from_one(u16::MAX.into()) as u16),
        round: Some(random.from_one(u32::MAX.into()) as u32),
        register: Some(Register {
            stamp: random.from_one(u32::MAX.into()) as u32,
            desk: random.from_one(u16::MAX.into()) as u16,
            value: room,
        }),
        ledger,
        note: Some(random.from_one(u32::MAX.into()) as u32),
    }
}

/// A ledger that a message may carry, from empty to all rows and cells.
pub fn ledger(random: &mut Random, config: Config) -> Ledger {
    let mut ledger = Ledger::FRESH;
    if config.n() == 1 {
        return ledger;
    }
    match random.below(16) {
        0..=2 => {}
        3 => add_ring(random, config, &mut ledger, MOST_IN_ROW as u32),
        4 => add_all_cells(random, config, &mut ledger),
        5 => {
            add_all_cells(random, config, &mut ledger);
            add_gifts(random, config, &mut ledger);
        }
        6..=8 => add_rings(random, config, &mut ledger),
        9..=10 => {
            add_rings(random, config, &mut ledger);
            add_gifts(random, config, &mut ledger);
        }
        _ => add_gifts(random, config, &mut ledger),
    }
    add_counts(random, &mut ledger);
    ledger
}

/// Lets one server give so much that its weight is not above the floor: often
/// by one too many. There must be a second server to take it.
pub fn make_light(random: &mut Random, config: Config, ledger: &mut Ledger) {
    let (giver, taker) = two_servers(random, config);
    if total(&ledger.cells[giver]) == MOST_IN_ROW {
        *ledger = Ledger::FRESH;
    }
    let rest = config.spare(ledger.weights(config)[giver]) as u32;
    let beyond = match random.below(4) {
        0..=1 => 1,
        2 => random.within(1, 2_000),
        _ => random.within(1, 20_000_000),
    };
    ledger.cells[giver][taker] += rest + beyond as u32;
    add_counts(random, ledger);
}

/// A few gifts, each within what the giver can spare; or one gift of 1, which
/// puts many maps just above half of the weight, or just below.
fn add_gifts(random: &mut Random, config: Config, ledger: &mut Ledger) {
    let mut weights = ledger.weights(config);
    if random.one_in(4) {
        let (giver, taker) = two_servers(random, config);
        ledger.cells[giver][taker] += u32::from(config.spare(weights[giver]) > 0);
        return;
    }
    for _ in 0..random.within(1, 2 * config.n() as u64) {
        let (giver, taker) = two_servers(random, config);
        let spare = config.spare(weights[giver]) as u64;
        if spare > 0 {
            let gift = match random.below(4) {
                0 => spare,
                1 => 1,
                _ => random.within(1, spare),
            };
            ledger.cells[giver][taker] += gift as u32;
            weights[giver] -= gift as i64;
            weights[taker] += gift as i64;
        }
    }
}

fn add_rings(random: &mut Random, config: Config, ledger: &mut Ledger) {
    for _ in 0..random.within(1, 6) {
        let amount = ring_amount(random);
        add_ring(random, config, ledger, amount);
    }
}

/// One ring through two or more servers.
fn add_ring(random: &mut Random, config: Config, ledger: &mut Ledger, amount: u32) {
    let n = config.n();
    let mut servers: [usize; MOST] = std::array::from_fn(|server| server);
    for place in (1..n).rev() {
        servers.swap(place, random.index(place + 1));
    }
    let ring = &servers[..random.within(2, n as u64) as usize];
    for (place, &giver) in ring.iter().enumerate() {
        ledger.cells[giver][ring[(place + 1) % ring.len()]] += amount;
    }
}

/// Every cell of every row: for each distance, a ring or more of that step.
fn add_all_cells(random: &mut Random, config: Config, ledger: &mut Ledger) {
    let n = config.n();
    for step in 1..n {
        let amount = ring_amount(random);
        for giver in 0..n {
            ledger.cells[giver][(giver + step) % n] += amount;
        }
    }
}

/// An amount for a ring. A row has at most 15 + 6 of them and stays in bounds.
fn ring_amount(random: &mut Random) -> u32 {
    let amount = match random.below(8) {
        0 => 1,
        1..=2 => MOST_PER_TRANSFER * random.within(1, 20),
        3 => random.within(1, 40_000_000),
        4 => random.within(1, 100_000),
        _ => random.within(1, 1_000),
    };
    amount as u32
}

/// A lawful count for each row that isn't zero, often the least or the largest.
fn add_counts(random: &mut Random, ledger: &mut Ledger) {
    for (count, row) in ledger.counts.iter_mut().zip(&ledger.cells) {
        let total = total(row);
        let least = total.div_ceil(MOST_PER_TRANSFER);
        let largest = total.min(u16::MAX.into());
        let drawn = match random.below(4) {
            0 => least,
            1 => largest,
            2 => random.within(least, largest.min(least + 10)),
            _ => random.within(least, largest),
        };
        *count = drawn as u16;
    }
}

fn total(row: &[u32]) -> u64 {
    row.iter().map(|&amount| u64::from(amount)).sum()
}

/// A giver and a taker.
fn two_servers(random: &mut Random, config: Config) -> (usize, usize) {
    let giver = random.index(config.n());
    let step = random.within(1, config.n() as u64 - 1) as usize;
    (giver, (giver + step) % config.n())
}

#[cfg(test)]
mod tests {
    use super::*;
    use crate::format::read;
    use crate::place::Place;
    use crate::starts::config;
    use crate::write::write;

    #[test]
    fn what_is_written_is_read_back() {
        let mut random = Random::new(4);
        for _ in 0..50_000 {
            let config = config(&mut random);
            let mut room = [0; 64];
            let message = message(&mut random, config, &mut room);
            let bytes = write(&message);
            let again = read(config, &bytes);
            assert_eq!(again, Ok(message), "{config:?} {bytes:02X?}");
        }
    }

    #[test]
    fn the_longest_has_1111_bytes() {
        let mut random = Random::new(5);
        let config = Config::level(16, 7);
        for _ in 0..1_000 {
            let mut room = [0; 64];
            let message = longest(&mut random, config, &mut room);
            let bytes = write(&message);
            assert_eq!(bytes.len(), 1_111);
            assert_eq!(read(config, &bytes), Ok(message));
        }
    }

    #[test]
    fn one_gift_too_many_is_light() {
        let mut random = Random::new(6);
        for _ in 0..50_000 {
            let config = config(&mut random);
            if config.n() > 1 {
                let mut room = [0; 64];
                let mut message = message(&mut random, config, &mut room);
                make_light(&mut random, config, &mut message.ledger);
                assert_eq!(read(config, &write(&message)), Err(Place::Light.into()));
            }
        }
    }
}
