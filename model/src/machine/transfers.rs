//! A sheet as a set of transfers: paper 01, "Sheets" and "The runs of demand 3".
//! Union and inclusion go by membership, and nothing is ever refused here: the
//! machine has no test for 2 to 6.

use std::cmp::Ordering;
use std::rc::Rc;

use super::letter::Letter;
use super::number::No;
use super::register::Pair;
use super::sheet::{Handed, Party, Sheet};
use crate::weights::{Config, Ledger, MOST};

/// Giver i, its number k from 1, taker j, amount d.
#[derive(Clone, Copy, Debug, PartialEq, Eq, PartialOrd, Ord)]
pub struct Transfer {
    pub giver: u8,
    pub number: u32,
    pub taker: u8,
    pub amount: u32,
}

/// A set of transfers: its members in order, each once. Sets that are equal
/// share their members where one was made from the other.
#[derive(Clone, Debug, PartialEq, Eq)]
pub struct Transfers {
    members: Rc<Vec<Transfer>>,
}

impl Transfers {
    pub fn iter(&self) -> impl Iterator<Item = &Transfer> {
        self.members.iter()
    }

    /// Puts in a transfer that is not in the set.
    pub fn insert(&mut self, transfer: Transfer) {
        if let Err(place) = self.members.binary_search(&transfer) {
            Rc::make_mut(&mut self.members).insert(place, transfer);
        }
    }

    /// Those for which the test holds.
    pub fn filter(&self, test: impl Fn(&Transfer) -> bool) -> Transfers {
        let members = self.iter().copied().filter(|member| test(member));
        Transfers {
            members: Rc::new(members.collect()),
        }
    }

    /// Whether every member of the other is one of this set.
    pub fn includes(&self, other: &Transfers) -> bool {
        if Rc::ptr_eq(&self.members, &other.members) {
            return true;
        }
        let mut own = self.members.iter();
        other
            .iter()
            .all(|member| own.by_ref().find(|own| *own >= member) == Some(member))
    }
}

impl Sheet for Transfers {
    fn fresh() -> Transfers {
        Transfers {
            members: Rc::default(),
        }
    }

    fn count(&self, giver: usize) -> usize {
        // The members of a giver stand together.
        let before = |giver| {
            let earlier = |member: &Transfer| usize::from(member.giver) < giver;
            self.members.partition_point(earlier)
        };
        before(giver + 1) - before(giver)
    }

    fn weights(&self, config: Config) -> [i64; MOST] {
        let mut weights = config.start_weights();
        for transfer in self.iter() {
            weights[usize::from(transfer.giver)] -= i64::from(transfer.amount);
            weights[usize::from(transfer.taker)] += i64::from(transfer.amount);
        }
        weights
    }

    fn weight(&self, config: Config, server: usize) -> i64 {
        let is_server = |party: u8| i64::from(usize::from(party) == server);
        let gain = |transfer: &Transfer| {
            i64::from(transfer.amount) * (is_server(transfer.taker) - is_server(transfer.giver))
        };
        config.start_weights()[server] + self.iter().map(gain).sum::<i64>()
    }

    fn ledger(&self) -> Ledger {
        let mut ledger = Ledger::FRESH;
        for transfer in self.iter() {
            let giver = usize::from(transfer.giver);
            ledger.counts[giver] += 1;
            ledger.cells[giver][usize::from(transfer.taker)] += transfer.amount;
        }
        ledger
    }

    fn lacks(&self, other: &Transfers) -> bool {
        !self.includes(other)
    }

    fn join(&self, other: &Transfers) -> Transfers {
        if self.includes(other) {
            return self.clone();
        }
        if other.includes(self) {
            return other.clone();
        }
        let mut union = Vec::with_capacity(self.members.len() + other.members.len());
        let (mut one, mut two) = (&self.members[..], &other.members[..]);
        while let ([first, one_rest @ ..], [second, two_rest @ ..]) = (one, two) {
            union.push(*first.min(second));
            match first.cmp(second) {
                Ordering::Less => one = one_rest,
                Ordering::Greater => two = two_rest,
                Ordering::Equal => (one, two) = (one_rest, two_rest),
            }
        }
        union.extend_from_slice(one);
        union.extend_from_slice(two);
        Transfers {
            members: Rc::new(union),
        }
    }

    fn add(&mut self, giver: usize, taker: usize, amount: u32) {
        self.insert(Transfer {
            giver: giver as u8,
            number: self.count(giver) as u32 + 1,
            taker: taker as u8,
            amount,
        });
    }

    fn clash(_: Config, _: Party, _: &Pair<Self>, _: &Pair<Self>) -> bool {
        false
    }

    fn open(_: Config, message: &Handed, sent: &[Letter<Self>]) -> Result<Letter<Self>, No> {
        // A line that is given as text names its message by the bytes.
        let by_bytes = || {
            sent.iter()
                .position(|letter| letter.bytes() == message.bytes)
        };
        let place = message.place.or_else(by_bytes);
        Ok(sent[place.expect("the message was sent")].clone())
    }
}

#[cfg(test)]
mod tests {
    use super::*;

    fn set(members: &[(u8, u32, u8, u32)]) -> Transfers {
        let mut set = Transfers::fresh();
        for &(giver, number, taker, amount) in members {
            set.insert(Transfer {
                giver,
                number,
                taker,
                amount,
            });
        }
        set
    }

    #[test]
    fn union_and_inclusion_go_by_membership() {
        let one = set(&[(0, 1, 2, 5), (1, 1, 0, 7)]);
        let two = set(&[(1, 1, 0, 7), (1, 2, 0, 9), (3, 1, 1, 2)]);
        let both = set(&[(0, 1, 2, 5), (1, 1, 0, 7), (1, 2, 0, 9), (3, 1, 1, 2)]);
        assert_eq!(one.join(&two), both);
        assert_eq!(two.join(&one), both);
        assert!(both.includes(&one) && both.includes(&two));
        assert!(one.lacks(&two) && two.lacks(&one) && one.lacks(&both));
        // Another amount is another transfer.
        assert!(one.lacks(&set(&[(0, 1, 2, 6)])));
    }

    #[test]
    fn weights_and_cells_of_a_set() {
        let mut sheet = Transfers::fresh();
        sheet.add(0, 2, 200);
        sheet.add(0, 1, 30);
        sheet.add(2, 0, 7);
        let ledger = sheet.ledger();
        assert_eq!(ledger.counts[..3], [2, 0, 1]);
        assert_eq!(ledger.cells[0][..3], [0, 30, 200]);
        let uneven = Config::new(3, 0, &[2_000, 700, 900]).expect("it is lawful");
        for (config, weights) in [
            (Config::level(3, 0), [777, 1_030, 1_193]),
            (uneven, [1_777, 730, 1_093]),
        ] {
            assert_eq!(sheet.weights(config)[..3], weights);
            assert_eq!(ledger.weights(config), sheet.weights(config));
            let one = |server| sheet.weight(config, server);
            assert_eq!(std::array::from_fn(one), sheet.weights(config));
        }
    }
}
