//! The server: paper 01, "Server". Its calls give the numbers in their order; a
//! refused call changes nothing.

use super::letter::Letter;
use super::number::No;
use super::register::Pair;
use super::sheet::{Party, Sheet};
use crate::format::Kind;
use crate::weights::Config;

/// The most transfers that a server makes.
const MOST_TRANSFERS: usize = u16::MAX as usize;

#[derive(Clone, Debug)]
pub struct Server<S> {
    pub number: usize,
    pub pair: Pair<S>,
}

/// The buffer that a call is lent: the place to write from, and its length.
#[derive(Clone, Copy, Debug, PartialEq, Eq)]
pub struct Room {
    pub at: u64,
    pub len: u64,
}

impl Room {
    /// Whether so many bytes have room from the place on.
    pub fn holds(self, length: usize) -> bool {
        self.at <= self.len && self.len - self.at >= length as u64
    }
}

impl<S: Sheet> Server<S> {
    pub fn fresh(number: usize) -> Server<S> {
        Server {
            number,
            pair: Pair::fresh(),
        }
    }

    /// Gives a taker weight.
    pub fn transfer(&mut self, config: Config, taker: u64, amount: u64) -> Result<(), No> {
        self.may_transfer(config, &self.pair.sheet, taker, amount)?;
        // What is left of the weight is above the floor, so the amount is small.
        self.pair
            .sheet
            .add(self.number, taker as usize, amount as u32);
        Ok(())
    }

    /// The tests of a transfer, by the sheet that weighs the giver.
    pub fn may_transfer(
        &self,
        config: Config,
        sheet: &S,
        taker: u64,
        amount: u64,
    ) -> Result<(), No> {
        if taker == self.number as u64 || taker >= config.n() as u64 || amount == 0 {
            return Err(No::BAD_TRANSFER);
        }
        if self.pair.sheet.count(self.number) >= MOST_TRANSFERS {
            return Err(No::SPENT);
        }
        let weight = sheet.weight(config, self.number);
        let rest = i128::from(weight) - i128::from(amount);
        match i64::try_from(rest) {
            Ok(rest) if rest > 0 && config.above_floor(rest) => Ok(()),
            _ => Err(No::THIN),
        }
    }

    /// A share of its pair, if the buffer has room.
    pub fn share(&self, room: Room) -> Result<Letter<S>, No> {
        self.send(Kind::Share, None, room)
    }

    /// Takes a share, or a request, to which it replies.
    pub fn serve(
        &mut self,
        config: Config,
        letter: &Letter<S>,
        room: Room,
    ) -> Result<Option<Letter<S>>, No> {
        let meant = match letter.kind {
            Kind::Request => usize::from(letter.server) == self.number,
            Kind::Reply => false,
            Kind::Share => true,
        };
        if !meant {
            return Err(No::STRAY);
        }
        if S::clash(config, Party::Server(self.number), &self.pair, &letter.pair) {
            return Err(No::CLASH);
        }
        let joined = Server {
            number: self.number,
            pair: self.pair.join(&letter.pair),
        };
        let reply = match letter.kind {
            Kind::Request => Some(joined.send(Kind::Reply, Some(letter), room)?),
            _ => None,
        };
        *self = joined;
        Ok(reply)
    }

    /// A message with its pair, and what it repeats of a request.
    fn send(&self, kind: Kind, request: Option<&Letter<S>>, room: Room) -> Result<Letter<S>, No> {
        let letter = Letter {
            kind,
            server: self.number as u8,
            desk: request.map_or(0, |request| request.desk),
            round: request.map_or(0, |request| request.round),
            note: request.map_or(0, |request| request.note),
            pair: self.pair.clone(),
        };
        if room.holds(letter.bytes().len()) {
            Ok(letter)
        } else {
            Err(No::NARROW)
        }
    }
}
