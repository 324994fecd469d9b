//! A section of one server, made by hand.

use crate::conformance::line::Line;
use crate::format::Message;
use crate::machine::command::{Command, House};
use crate::machine::server::Room;
use crate::runs::player::ROOMY;
use crate::write::write;

/// The lines so far, from a house on.
pub struct One {
    server: u64,
    pub lines: Vec<Line>,
}

impl One {
    /// A fresh level cluster, of which this server is meant.
    pub fn new(n: u64, f: u64, server: u64) -> One {
        One::of(House::level(n, f), server)
    }

    /// The same, where the servers need not start level.
    pub fn of(house: impl Into<House>, server: u64) -> One {
        let house = house.into();
        One {
            server,
            lines: vec![Command::House { house }],
        }
    }

    pub fn record(&mut self) {
        let server = self.server;
        self.lines.push(Command::RecordServer { server });
    }

    /// It gives.
    pub fn transfer(&mut self, taker: u64, amount: u64) {
        self.lines.push(Command::Transfer {
            giver: self.server,
            taker,
            amount,
        });
    }

    /// It writes a share.
    pub fn share(&mut self, room: Room) {
        let server = self.server;
        self.lines.push(Command::Share { server, room });
    }

    /// It takes a message, with room for every reply.
    pub fn serve(&mut self, message: &Message) {
        self.serve_in(message, ROOMY);
    }

    pub fn serve_in(&mut self, message: &Message, room: Room) {
        self.serve_bytes(write(message), room);
    }

    pub fn serve_bytes(&mut self, message: Vec<u8>, room: Room) {
        self.lines.push(Command::Serve {
            server: self.server,
            room,
            message,
        });
    }
}
