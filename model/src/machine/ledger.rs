//! A sheet as counts and cells, for messages that anybody may have made: paper
//! 01, "Sheets" (what two sheets need to join), "Server" and "Desk" (the number
//! 6). Messages come as bytes, and the reader gives the numbers 2 to 5.

use super::letter::Letter;
use super::number::No;
use super::register::Pair;
use super::sheet::{Handed, Party, Sheet};
use crate::format::read;
use crate::weights::{Config, Ledger, MOST};

impl Sheet for Ledger {
    fn fresh() -> Ledger {
        Ledger::FRESH
    }

    fn count(&self, giver: usize) -> usize {
        self.counts[giver].into()
    }

    fn weights(&self, config: Config) -> [i64; MOST] {
        Ledger::weights(self, config)
    }

    fn ledger(&self) -> Ledger {
        self.clone()
    }

    fn lacks(&self, other: &Ledger) -> bool {
        (0..MOST).any(|giver| other.counts[giver] > self.counts[giver])
    }

    /// Per giver the row with the larger count.
    fn join(&self, other: &Ledger) -> Ledger {
        let mut union = self.clone();
        for giver in 0..MOST {
            if other.counts[giver] > self.counts[giver] {
                union.counts[giver] = other.counts[giver];
                union.cells[giver] = other.cells[giver];
            }
        }
        union
    }

    fn add(&mut self, giver: usize, taker: usize, amount: u32) {
        self.counts[giver] += 1;
        self.cells[giver][taker] += amount;
    }

    fn clash(config: Config, party: Party, held: &Pair<Ledger>, other: &Pair<Ledger>) -> bool {
        let (own, brought) = (&held.sheet, &other.sheet);
        let party_clash = match party {
            Party::Server(server) => brought.counts[server] > own.counts[server],
            Party::Desk => brought.lacks(own),
        };
        let tags_clash =
            held.register.tag == other.register.tag && held.register.value != other.register.value;
        party_clash || tags_clash || !rows_join(own, brought) || own.join(brought).is_light(config)
    }

    fn open(config: Config, message: &Handed, _: &[Letter<Self>]) -> Result<Letter<Self>, No> {
        match read(config, &message.bytes) {
            Ok(message) => Ok(Letter::from_message(&message)),
            Err(fault) => Err(No(fault.number)),
        }
    }
}

/// Equal rows at equal counts, and no cell smaller in the later row.
fn rows_join(one: &Ledger, two: &Ledger) -> bool {
    (0..MOST).all(|giver| {
        let (first, second) = (&one.cells[giver], &two.cells[giver]);
        let grows = |from: &[u32], to: &[u32]| from.iter().zip(to).all(|(from, to)| from <= to);
        match one.counts[giver].cmp(&two.counts[giver]) {
            std::cmp::Ordering::Equal => first == second,
            std::cmp::Ordering::Less => grows(first, second),
            std::cmp::Ordering::Greater => grows(second, first),
        }
    })
}
