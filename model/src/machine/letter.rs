//! A message's fields with its sender's sheet, and its bytes by the table of
//! paper 01, "Message bytes". (`format::Message` is what the reader finds in
//! bytes; a letter holds a sheet of either sort.)

use super::register::{Pair, Register, Tag};
use super::sheet::Sheet;
use crate::format::{self, Kind, Message};
use crate::weights::Ledger;
use crate::write::write;

/// A message. Desk and round are 0 in a share, the note is 0 for none.
#[derive(Clone, Debug, PartialEq, Eq)]
pub struct Letter<S> {
    pub kind: Kind,
    pub server: u8,
    pub desk: u16,
    pub round: u32,
    pub note: u32,
    pub pair: Pair<S>,
}

impl<S: Sheet> Letter<S> {
    /// The fields by the table, counts and cells worked out from the sheet.
    pub fn bytes(&self) -> Vec<u8> {
        let Register { tag, value } = &self.pair.register;
        let register = (*tag != Tag::default()).then_some(format::Register {
            stamp: tag.stamp,
            desk: tag.desk,
            value,
        });
        write(&Message {
            kind: self.kind,
            server: self.server,
            desk: (self.desk != 0).then_some(self.desk),
            round: (self.round != 0).then_some(self.round),
            register,
            ledger: self.pair.sheet.ledger(),
            note: (self.note != 0).then_some(self.note),
        })
    }
}

impl Letter<Ledger> {
    /// What the reader found.
    pub fn from_message(message: &Message) -> Letter<Ledger> {
        let register = match message.register {
            None => Register::start(),
            Some(register) => Register {
                tag: Tag {
                    stamp: register.stamp,
                    desk: register.desk,
                },
                value: register.value.into(),
            },
        };
        Letter {
            kind: message.kind,
            server: message.server,
            desk: message.desk.unwrap_or(0),
            round: message.round.unwrap_or(0),
            note: message.note.unwrap_or(0),
            pair: Pair {
                sheet: message.ledger.clone(),
                register,
            },
        }
    }
}
