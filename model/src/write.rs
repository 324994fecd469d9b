//! The writer of messages, for the random cases: paper 01, the table of
//! "Message bytes". It writes what it is given without a check, and tells where
//! each part of the message lies, so that a case can damage the part it means.

use std::ops::Range;

use crate::format::{field, Message};
use crate::weights::{bits, Ledger};

/// The numbers, maps and values of a message, each a part of its bytes.
#[derive(Clone, Copy, Debug, PartialEq, Eq)]
pub enum Part {
    Map,
    Kind,
    Server,
    Desk,
    Round,
    Stamp,
    TagDesk,
    Length,
    Value,
    RowMap,
    Count,
    CellMap,
    Cell,
    Note,
}

/// A part and the bytes that it takes. The giver is that of a count, a cell map
/// or a cell, the taker that of a cell; elsewhere they are 0.
#[derive(Clone, Debug, PartialEq, Eq)]
pub struct Piece {
    pub part: Part,
    pub giver: usize,
    pub taker: usize,
    pub at: Range<usize>,
}

/// A message's bytes.
pub fn write(message: &Message) -> Vec<u8> {
    write_pieces(message).0
}

/// A message's bytes and, in their order, the parts they are made of.
pub fn write_pieces(message: &Message) -> (Vec<u8>, Vec<Piece>) {
    let mut writer = Writer {
        bytes: Vec::new(),
        pieces: Vec::new(),
    };
    writer.put(Part::Map, &field_map(message).to_be_bytes());
    writer.put(Part::Kind, &[message.kind as u8]);
    writer.put(Part::Server, &[message.server]);
    if let Some(desk) = message.desk {
        writer.put(Part::Desk, &desk.to_be_bytes());
    }
    if let Some(round) = message.round {
        writer.put(Part::Round, &round.to_be_bytes());
    }
    if let Some(register) = message.register {
        writer.put(Part::Stamp, &register.stamp.to_be_bytes());
        writer.put(Part::TagDesk, &register.desk.to_be_bytes());
        writer.put(Part::Length, &[register.value.len() as u8]);
        writer.put(Part::Value, register.value);
    }
    writer.ledger(&message.ledger);
    if let Some(note) = message.note {
        writer.put(Part::Note, &note.to_be_bytes());
    }
    (writer.bytes, writer.pieces)
}

/// The map in front: which fields stand.
fn field_map(message: &Message) -> u16 {
    let bit = |bit: u16, stands: bool| if stands { bit } else { 0 };
    field::KIND
        | field::SERVER
        | bit(field::DESK, message.desk.is_some())
        | bit(field::ROUND, message.round.is_some())
        | bit(field::REGISTER, message.register.is_some())
        | bit(field::LEDGER, row_map(&message.ledger) != 0)
        | bit(field::NOTE, message.note.is_some())
}

/// The rows that are not zero.
fn row_map(ledger: &Ledger) -> u16 {
    map_of(|giver| ledger.counts[giver] != 0)
}

/// The map of the servers for which the test holds.
fn map_of(test: impl Fn(usize) -> bool) -> u16 {
    (0..16).fold(0, |map, server| map | u16::from(test(server)) << server)
}

struct Writer {
    bytes: Vec<u8>,
    pieces: Vec<Piece>,
}

impl Writer {
    fn put(&mut self, part: Part, bytes: &[u8]) {
        self.put_in_row(part, 0, 0, bytes);
    }

    fn put_in_row(&mut self, part: Part, giver: usize, taker: usize, bytes: &[u8]) {
        let start = self.bytes.len();
        self.bytes.extend_from_slice(bytes);
        self.pieces.push(Piece {
            part,
            giver,
            taker,
            at: start..self.bytes.len(),
        });
    }

    fn ledger(&mut self, ledger: &Ledger) {
        let rows = row_map(ledger);
        if rows == 0 {
            return;
        }
        self.put(Part::RowMap, &rows.to_be_bytes());
        for giver in bits(rows) {
            let count = ledger.counts[giver];
            let row = &ledger.cells[giver];
            let takers = map_of(|taker| row[taker] != 0);
            self.put_in_row(Part::Count, giver, 0, &count.to_be_bytes());
            self.put_in_row(Part::CellMap, giver, 0, &takers.to_be_bytes());
            for taker in bits(takers) {
                self.put_in_row(Part::Cell, giver, taker, &row[taker].to_be_bytes());
            }
        }
    }
}
