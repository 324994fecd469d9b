//! What servers and desks need of a sheet: paper 01, "Sheets". `Transfers` is a
//! set, by which the plain machine goes; `Ledger` has counts and cells, and can
//! meet a sheet that it does not join with.

use super::letter::Letter;
use super::number::No;
use super::register::Pair;
use crate::weights::{Config, Ledger, MOST};

/// A sheet of transfers.
pub trait Sheet: Clone {
    /// The sheet without a transfer.
    fn fresh() -> Self;

    /// How many transfers of this giver it has.
    fn count(&self, giver: usize) -> usize;

    /// What every server weighs: its start weight + received − given.
    fn weights(&self, config: Config) -> [i64; MOST];

    /// What one server weighs.
    fn weight(&self, config: Config, server: usize) -> i64 {
        self.weights(config)[server]
    }

    /// Its counts and cells.
    fn ledger(&self) -> Ledger;

    /// Whether the other has a transfer that this one lacks.
    fn lacks(&self, other: &Self) -> bool;

    /// The union.
    fn join(&self, other: &Self) -> Self;

    /// The giver's next transfer is put in.
    fn add(&mut self, giver: usize, taker: usize, amount: u32);

    /// Whether a party that holds a pair refuses another with 6.
    fn clash(config: Config, party: Party, held: &Pair<Self>, other: &Pair<Self>) -> bool;

    /// The message that is handed to a call, or the number of its checks.
    fn open(config: Config, message: &Handed, sent: &[Letter<Self>]) -> Result<Letter<Self>, No>;

    /// The margin of the servers that a map names: above 0 they are a quorum.
    fn margin(&self, config: Config, map: u16) -> i64 {
        config.margin(&self.weights(config), map)
    }
}

/// Who is handed a message.
#[derive(Clone, Copy, Debug, PartialEq, Eq)]
pub enum Party {
    Server(usize),
    Desk,
}

/// A message handed to serve or hear: its place among those sent, where it has
/// one, and its bytes.
#[derive(Clone, Debug, PartialEq, Eq)]
pub struct Handed {
    pub place: Option<usize>,
    pub bytes: Vec<u8>,
}
