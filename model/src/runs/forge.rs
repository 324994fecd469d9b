//! Messages that nobody sent, made for a party whose record was shown: the
//! sheet and the register that it holds with one thing changed, so that each
//! cause of the numbers 6, 7 and 12 and of "late" is met (paper 01, "Server",
//! "Desk" and "Numbers handed out"); then, now and then, damaged.

use super::seen::Shown;
use crate::aim::aimed_in;
use crate::damage::{damage, noise};
use crate::format::{Kind, Message, Register};
use crate::lawful;
use crate::machine::sheet::Party;
use crate::place::Place;
use crate::random::Random;
use crate::weights::{Config, Ledger, MOST};
use crate::write::{write, write_pieces};

/// Bytes, and what was done to them in words.
pub struct Forged {
    pub words: &'static str,
    pub bytes: Vec<u8>,
}

/// A message for a party of this number that holds what was shown.
pub fn forge(
    random: &mut Random,
    config: Config,
    party: Party,
    number: u64,
    held: &Shown,
) -> Forged {
    let mut room = [0; 64];
    let mut message = lawful::message(random, config, &mut room);
    address(random, &mut message, party, number, held);
    let own = match party {
        Party::Server(server) => Some(server),
        Party::Desk => None,
    };
    let value = other_value(random, &held.value);
    let mut words = "a message that fits";
    message.ledger = held.ledger.clone();
    message.register = register_of(held.tag.stamp, held.tag.desk, &held.value);
    match random.below(16) {
        0..=6 => words = change_sheet(random, config, &mut message.ledger, own),
        7 if held.tag.stamp > 0 => {
            words = "an equal tag with another value";
            message.register = register_of(held.tag.stamp, held.tag.desk, &value);
        }
        8 => {
            words = "a stamp at its end";
            message.register = register_of(u32::MAX, u16::MAX, &value);
        }
        9 => {
            words = "a stamp just before its end";
            message.register = register_of(u32::MAX - 1, u16::MAX, &value);
        }
        10 => {
            words = "a higher stamp";
            message.register = register_of(held.tag.stamp.saturating_add(1), 1, &value);
        }
        11 => {
            words = "any lawful sheet";
            message.ledger = lawful::ledger(random, config);
        }
        12 if config.n() > 1 => {
            words = "a light sheet";
            lawful::make_light(random, config, &mut message.ledger);
        }
        _ => {}
    }
    if random.one_in(3) {
        if let Some(forged) = damaged(random, config, &message) {
            return forged;
        }
    }
    let bytes = write(&message);
    Forged { words, bytes }
}

/// Kind and addressee, seldom wrong ones; a reply is most often current.
fn address(random: &mut Random, message: &mut Message, party: Party, number: u64, held: &Shown) {
    let astray = random.one_in(8);
    match party {
        _ if astray => {}
        Party::Server(server) if message.kind != Kind::Share => {
            message.kind = Kind::Request;
            message.server = server as u8;
        }
        Party::Server(_) => {}
        Party::Desk => {
            let round = held.desk.as_ref().map_or(0, |desk| desk.round);
            message.kind = Kind::Reply;
            message.desk = Some(number as u16);
            message.round = Some(match random.below(8) {
                0 => round.saturating_add(1),
                1 => round.max(2) - 1,
                _ => round.max(1),
            });
        }
    }
}

fn register_of(stamp: u32, desk: u16, value: &[u8]) -> Option<Register<'_>> {
    (stamp > 0).then_some(Register { stamp, desk, value })
}

/// A value that is not this one.
fn other_value(random: &mut Random, value: &[u8]) -> Vec<u8> {
    let mut other = value.to_vec();
    match random.below(3) {
        0 if other.len() < 64 => other.push(random.word() as u8),
        1 if !other.is_empty() => {
            other.pop();
        }
        _ => match other.last_mut() {
            Some(last) => *last ^= 1,
            None => other.push(0),
        },
    }
    other
}

/// One row is another than the party holds.
fn change_sheet(
    random: &mut Random,
    config: Config,
    ledger: &mut Ledger,
    own: Option<usize>,
) -> &'static str {
    let n = config.n();
    if n < 2 {
        return "a message that fits";
    }
    let ahead = random.one_in(3);
    let standing: Vec<usize> = (0..n).filter(|&giver| ledger.counts[giver] > 0).collect();
    let giver = match own {
        Some(own) if ahead && random.one_in(2) => own,
        _ if ahead || standing.is_empty() => random.index(n),
        _ => *random.pick(&standing),
    };
    let taker = (giver + 1 + random.index(n - 1)) % n;
    let count = ledger.counts[giver];
    if ahead || count == 0 {
        ledger.counts[giver] = count.saturating_add(1);
        ledger.cells[giver][taker] += 1;
        return match own == Some(giver) {
            true => "the server's own row is ahead",
            false => "a row is ahead",
        };
    }
    match random.below(4) {
        0 => {
            ledger.cells[giver][taker] += 1;
            "a row of the same count has another cell"
        }
        1 => {
            let row = &mut ledger.cells[giver];
            let most = (0..n).max_by_key(|&taker| row[taker]).expect("n is not 0");
            row[most] -= 1;
            ledger.counts[giver] = count.saturating_add(1);
            "a later row has a smaller cell"
        }
        2 => {
            ledger.counts[giver] = 0;
            ledger.cells[giver] = [0; MOST];
            "a row is behind"
        }
        _ => {
            ledger.counts[giver] = count - 1;
            ledger.cells[giver][taker] += 1;
            "an earlier row has a larger cell"
        }
    }
}

/// The message damaged blindly, aimed at one check, or noise.
fn damaged(random: &mut Random, config: Config, message: &Message) -> Option<Forged> {
    let (words, bytes) = match random.below(8) {
        0..=2 => {
            let (mut bytes, pieces) = write_pieces(message);
            damage(random, &mut bytes, &pieces);
            ("damaged blindly", bytes)
        }
        3 => ("noise", noise(random, config.n() as u64)),
        _ => {
            let place = *random.pick(Place::ALL);
            (
                "aimed at a check",
                aimed_in(random, config, message, place)?,
            )
        }
    };
    Some(Forged { words, bytes })
}
