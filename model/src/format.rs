//! The reader of messages: paper 01, "Message bytes". One pass over the bytes,
//! nothing on the heap; the value is a part of the caller's own message. The
//! first fault found gives the place, and the place gives the number.

use crate::place::{Fault, Place};
use crate::weights::{bits, Config, Ledger};

/// The map's bits, one for each field.
pub mod field {
    pub const KIND: u16 = 1 << 0;
    pub const SERVER: u16 = 1 << 1;
    pub const DESK: u16 = 1 << 2;
    pub const ROUND: u16 = 1 << 3;
    pub const REGISTER: u16 = 1 << 4;
    pub const LEDGER: u16 = 1 << 5;
    pub const NOTE: u16 = 1 << 6;
    /// The bits that stand for no field.
    pub const HIGH: u16 = !0 << 7;
}

/// The longest value of a register.
pub const LONGEST_VALUE: u8 = 64;

/// The most that one transfer can add to a row, on average over the row.
pub const MOST_PER_TRANSFER: u64 = 16_000;

#[derive(Clone, Copy, Debug, PartialEq, Eq)]
pub enum Kind {
    Request = 1,
    Reply = 2,
    Share = 3,
}

/// A register that is not the start: its tag (stamp, desk) and its value.
#[derive(Clone, Copy, Debug, PartialEq, Eq)]
pub struct Register<'a> {
    pub stamp: u32,
    pub desk: u16,
    pub value: &'a [u8],
}

/// What a message says. `None` is a field that is absent; a message without a
/// sheet has the fresh ledger, on which each server has its start weight.
#[derive(Clone, Debug, PartialEq, Eq)]
pub struct Message<'a> {
    pub kind: Kind,
    pub server: u8,
    pub desk: Option<u16>,
    pub round: Option<u32>,
    pub register: Option<Register<'a>>,
    pub ledger: Ledger,
    pub note: Option<u32>,
}

/// Reads a message, all of it, or says where it is refused first.
pub fn read(config: Config, bytes: &[u8]) -> Result<Message<'_>, Fault> {
    let mut reader = Reader { rest: bytes };
    let map = reader.u16(Place::TornMap)?;
    check_map(map)?;
    let kind = read_kind(&mut reader)?;
    check_fields(kind, map)?;
    let server = reader.u8(Place::TornServer)?;
    if usize::from(server) >= config.n() {
        return Err(Place::ServerRange.into());
    }
    let desk = match map & field::DESK {
        0 => None,
        _ => Some(reader.desk(Place::TornDesk, Place::DeskZero)?),
    };
    let round = match map & field::ROUND {
        0 => None,
        _ => Some(reader.number(Place::TornRound, Place::RoundZero)?),
    };
    let register = match map & field::REGISTER {
        0 => None,
        _ => Some(read_register(&mut reader)?),
    };
    let ledger = match map & field::LEDGER {
        0 => Ledger::FRESH,
        _ => read_ledger(&mut reader, config)?,
    };
    let note = match map & field::NOTE {
        0 => None,
        _ => Some(reader.number(Place::TornNote, Place::NoteZero)?),
    };
    if !reader.rest.is_empty() {
        return Err(Place::LeftOver.into());
    }
    // The start weights are above the floor in every cluster.
    if map & field::LEDGER != 0 && ledger.is_light(config) {
        return Err(Place::Light.into());
    }
    Ok(Message {
        kind,
        server,
        desk,
        round,
        register,
        ledger,
        note,
    })
}

/// The bits that no kind may have, and those that every kind has.
fn check_map(map: u16) -> Result<(), Place> {
    if map & field::HIGH != 0 {
        Err(Place::HighMapBits)
    } else if map & field::KIND == 0 {
        Err(Place::NoKind)
    } else if map & field::SERVER == 0 {
        Err(Place::NoServer)
    } else {
        Ok(())
    }
}

fn read_kind(reader: &mut Reader) -> Result<Kind, Place> {
    match reader.u8(Place::TornKind)? {
        0 => Err(Place::KindZero),
        1 => Ok(Kind::Request),
        2 => Ok(Kind::Reply),
        3 => Ok(Kind::Share),
        _ => Err(Place::KindOverThree),
    }
}

/// The fields that this kind may not have, or lacks.
fn check_fields(kind: Kind, map: u16) -> Result<(), Place> {
    let has = |bit| map & bit != 0;
    match kind {
        Kind::Share if has(field::DESK) => Err(Place::ShareWithDesk),
        Kind::Share if has(field::ROUND) => Err(Place::ShareWithRound),
        Kind::Share if has(field::NOTE) => Err(Place::ShareWithNote),
        Kind::Request | Kind::Reply if !has(field::DESK) => Err(Place::NoDesk),
        Kind::Request | Kind::Reply if !has(field::ROUND) => Err(Place::NoRound),
        _ => Ok(()),
    }
}

fn read_register<'a>(reader: &mut Reader<'a>) -> Result<Register<'a>, Place> {
    let stamp = reader.number(Place::TornStamp, Place::StampZero)?;
    let desk = reader.desk(Place::TornTagDesk, Place::TagDeskZero)?;
    let length = reader.u8(Place::TornLength)?;
    if length > LONGEST_VALUE {
        return Err(Place::LengthOver64);
    }
    let value = reader.slice(length.into(), Place::TornValue)?;
    Ok(Register { stamp, desk, value })
}

fn read_ledger(reader: &mut Reader, config: Config) -> Result<Ledger, Place> {
    let mut ledger = Ledger::FRESH;
    let rows = reader.u16(Place::TornRowMap)?;
    if rows == 0 {
        return Err(Place::RowMapZero);
    }
    if !config.names_servers(rows.into()) {
        return Err(Place::RowMapRange);
    }
    for giver in bits(rows) {
        ledger.counts[giver] = read_row(reader, config, giver, &mut ledger.cells[giver])?;
    }
    Ok(ledger)
}

/// Reads a giver's row into its cells and gives its count.
fn read_row(
    reader: &mut Reader,
    config: Config,
    giver: usize,
    row: &mut [u32],
) -> Result<u16, Place> {
    let count = reader.u16(Place::TornCount)?;
    if count == 0 {
        return Err(Place::CountZero);
    }
    let takers = reader.u16(Place::TornCellMap)?;
    if takers == 0 {
        return Err(Place::CellMapZero);
    }
    if !config.names_servers(takers.into()) {
        return Err(Place::CellMapRange);
    }
    if takers >> giver & 1 == 1 {
        return Err(Place::OwnCell);
    }
    let mut total: u64 = 0;
    for taker in bits(takers) {
        row[taker] = reader.number(Place::TornCell, Place::CellZero)?;
        total += u64::from(row[taker]);
    }
    if total < u64::from(count) {
        return Err(Place::TotalBelow);
    }
    if total > MOST_PER_TRANSFER * u64::from(count) {
        return Err(Place::TotalAbove);
    }
    Ok(count)
}

/// The bytes not read yet. Each method takes the place to name if they are too
/// few, and those for numbers from 1 upward also the place to name at 0.
struct Reader<'a> {
    rest: &'a [u8],
}

impl<'a> Reader<'a> {
    fn slice(&mut self, length: usize, torn: Place) -> Result<&'a [u8], Place> {
        let (head, rest) = self.rest.split_at_checked(length).ok_or(torn)?;
        self.rest = rest;
        Ok(head)
    }

    fn array<const N: usize>(&mut self, torn: Place) -> Result<[u8; N], Place> {
        let (head, rest) = self.rest.split_first_chunk().ok_or(torn)?;
        self.rest = rest;
        Ok(*head)
    }

    fn u8(&mut self, torn: Place) -> Result<u8, Place> {
        self.array(torn).map(u8::from_be_bytes)
    }

    fn u16(&mut self, torn: Place) -> Result<u16, Place> {
        self.array(torn).map(u16::from_be_bytes)
    }

    /// A desk, 16 bits from 1.
    fn desk(&mut self, torn: Place, zero: Place) -> Result<u16, Place> {
        match self.u16(torn)? {
            0 => Err(zero),
            desk => Ok(desk),
        }
    }

    /// A number of 32 bits from 1.
    fn number(&mut self, torn: Place, zero: Place) -> Result<u32, Place> {
        match self.array(torn).map(u32::from_be_bytes)? {
            0 => Err(zero),
            number => Ok(number),
        }
    }
}
