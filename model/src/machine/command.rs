//! The commands of the program `cases` and how they are written: docs/SCRIPTS.md,
//! "Commands". How a message is named is left open, by the step that sent it in
//! a script, by its place and bytes where a store is given the command.

use std::fmt::Write;

use super::desk::Task;
use super::record::listed;
use super::server::Room;
use crate::place::Place;
use crate::weights::{level, Config};

/// A cluster as a line gives it: n, f and the start weights. Without a list the
/// servers start level.
#[derive(Clone, Debug, PartialEq, Eq)]
pub struct House {
    pub n: u64,
    pub f: u64,
    pub starts: Option<Vec<u64>>,
}

impl House {
    /// A cluster whose servers start level, without a list.
    pub fn level(n: u64, f: u64) -> House {
        House { n, f, starts: None }
    }

    /// A cluster with this list.
    pub fn with_starts(n: u64, f: u64, starts: Vec<u64>) -> House {
        let starts = Some(starts);
        House { n, f, starts }
    }

    /// The start weights, also where they are not in the line.
    pub fn starts(&self) -> Vec<u64> {
        self.starts.clone().unwrap_or_else(|| level(self.n))
    }

    /// The cluster that it opens, if it is one.
    pub fn config(&self) -> Result<Config, Place> {
        Config::new(self.n, self.f, &self.starts())
    }

    /// The words of a line that give it.
    fn words(&self) -> String {
        let House { n, f, starts } = self;
        match starts {
            None => format!("{n} {f}"),
            Some(starts) => format!("{n} {f} starts {}", listed(starts, ",")),
        }
    }
}

impl From<Config> for House {
    /// Without a list where the servers start level.
    fn from(config: Config) -> House {
        let (n, f, starts) = (config.n() as u64, config.f() as u64, config.starts());
        match config.is_level() {
            true => House::level(n, f),
            false => House::with_starts(n, f, starts),
        }
    }
}

/// One line. `Text` is a line as it stands, readable or not.
#[derive(Clone, Debug, PartialEq, Eq)]
pub enum Command<M> {
    House { house: House },
    Begin { desk: u64, task: Task, note: u32 },
    Ask { desk: u64, server: u64, room: Room },
    Share { server: u64, room: Room },
    Serve { server: u64, room: Room, message: M },
    Hear { desk: u64, message: M },
    Result { desk: u64 },
    Drop { desk: u64 },
    Margin { desk: u64 },
    Transfer { giver: u64, taker: u64, amount: u64 },
    Crash { server: u64 },
    Check { bytes: Vec<u8> },
    Weight { server: u64, bytes: Vec<u8> },
    Quorum { map: u64, bytes: Vec<u8> },
    Seats { bytes: Vec<u8> },
    Named { map: u16 },
    Value { bytes: Vec<u8> },
    Message { house: House, bytes: Vec<u8> },
    RecordServer { server: u64 },
    RecordDesk { desk: u64 },
    Text(String),
}

impl<M> Command<M> {
    /// The line that opens a house of n and f whose servers start level.
    pub fn level(n: u64, f: u64) -> Command<M> {
        let house = House::level(n, f);
        Command::House { house }
    }

    /// The same command, its message named in another way, if it has one.
    pub fn with_message<N>(&self, name: impl FnOnce(&M) -> Option<N>) -> Option<Command<N>> {
        Some(match self {
            Command::Serve {
                server,
                room,
                message,
            } => Command::Serve {
                server: *server,
                room: *room,
                message: name(message)?,
            },
            Command::Hear { desk, message } => Command::Hear {
                desk: *desk,
                message: name(message)?,
            },
            Command::House { house } => Command::House {
                house: house.clone(),
            },
            Command::Begin { desk, task, note } => Command::Begin {
                desk: *desk,
                task: task.clone(),
                note: *note,
            },
            &Command::Ask { desk, server, room } => Command::Ask { desk, server, room },
            &Command::Share { server, room } => Command::Share { server, room },
            &Command::Result { desk } => Command::Result { desk },
            &Command::Drop { desk } => Command::Drop { desk },
            &Command::Margin { desk } => Command::Margin { desk },
            &Command::Transfer {
                giver,
                taker,
                amount,
            } => Command::Transfer {
                giver,
                taker,
                amount,
            },
            &Command::Crash { server } => Command::Crash { server },
            Command::Check { bytes } => Command::Check {
                bytes: bytes.clone(),
            },
            Command::Weight { server, bytes } => Command::Weight {
                server: *server,
                bytes: bytes.clone(),
            },
            Command::Quorum { map, bytes } => Command::Quorum {
                map: *map,
                bytes: bytes.clone(),
            },
            Command::Seats { bytes } => Command::Seats {
                bytes: bytes.clone(),
            },
            &Command::Named { map } => Command::Named { map },
            Command::Value { bytes } => Command::Value {
                bytes: bytes.clone(),
            },
            Command::Message { house, bytes } => Command::Message {
                house: house.clone(),
                bytes: bytes.clone(),
            },
            &Command::RecordServer { server } => Command::RecordServer { server },
            &Command::RecordDesk { desk } => Command::RecordDesk { desk },
            Command::Text(text) => Command::Text(text.clone()),
        })
    }

    /// Whether it is a step of paper 01's runs, or a line of the program's own.
    pub fn is_step(&self) -> bool {
        matches!(
            self,
            Command::Begin { .. }
                | Command::Ask { .. }
                | Command::Share { .. }
                | Command::Serve { .. }
                | Command::Hear { .. }
                | Command::Result { .. }
                | Command::Drop { .. }
                | Command::Transfer { .. }
                | Command::Crash { .. }
        )
    }

    /// Whether it is about a message, a block or a map, and about no record.
    pub fn takes_message_alone(&self) -> bool {
        matches!(
            self,
            Command::Check { .. }
                | Command::Weight { .. }
                | Command::Quorum { .. }
                | Command::Seats { .. }
                | Command::Named { .. }
                | Command::Value { .. }
                | Command::Message { .. }
        )
    }

    /// The desk that it names.
    pub fn desk(&self) -> Option<u64> {
        match self {
            Command::Begin { desk, .. }
            | Command::Ask { desk, .. }
            | Command::Hear { desk, .. }
            | Command::Result { desk }
            | Command::Drop { desk }
            | Command::Margin { desk }
            | Command::RecordDesk { desk } => Some(*desk),
            _ => None,
        }
    }

    /// The server whose record it is about.
    pub fn server(&self) -> Option<u64> {
        match self {
            Command::Share { server, .. }
            | Command::Serve { server, .. }
            | Command::Crash { server }
            | Command::RecordServer { server } => Some(*server),
            Command::Transfer { giver, .. } => Some(*giver),
            _ => None,
        }
    }

    /// The buffer that it lends.
    pub fn room(&self) -> Option<Room> {
        match self {
            Command::Ask { room, .. }
            | Command::Share { room, .. }
            | Command::Serve { room, .. } => Some(*room),
            _ => None,
        }
    }

    /// The words of the line, bytes as one word of hex.
    pub fn line<'a>(&'a self, bytes_of: impl Fn(&'a M) -> &'a [u8]) -> String {
        match self {
            Command::House { house } => format!("house {}", house.words()),
            Command::Begin { desk, task, note } => match task {
                Task::Read => format!("begin {desk} read {note}"),
                Task::Write(value) => format!("begin {desk} write {note} {}", hex(value)),
            },
            Command::Ask { desk, server, room } => {
                format!("ask {desk} {server} {} {}", room.at, room.len)
            }
            Command::Share { server, room } => format!("share {server} {} {}", room.at, room.len),
            Command::Serve {
                server,
                room,
                message,
            } => {
                let bytes = hex(bytes_of(message));
                format!("serve {server} {} {} {bytes}", room.at, room.len)
            }
            Command::Hear { desk, message } => format!("hear {desk} {}", hex(bytes_of(message))),
            Command::Result { desk } => format!("result {desk}"),
            Command::Drop { desk } => format!("drop {desk}"),
            Command::Margin { desk } => format!("margin {desk}"),
            Command::Transfer {
                giver,
                taker,
                amount,
            } => format!("transfer {giver} {taker} {amount}"),
            Command::Crash { server } => format!("crash {server}"),
            Command::Check { bytes } => format!("check {}", hex(bytes)),
            Command::Weight { server, bytes } => format!("weight {server} {}", hex(bytes)),
            Command::Quorum { map, bytes } => format!("quorum {map} {}", hex(bytes)),
            Command::Seats { bytes } => format!("seats {}", hex(bytes)),
            Command::Named { map } => format!("named {map}"),
            Command::Value { bytes } => format!("value {}", hex(bytes)),
            Command::Message { house, bytes } => {
                format!("message {} {}", house.words(), hex(bytes))
            }
            Command::RecordServer { server } => format!("record server {server}"),
            Command::RecordDesk { desk } => format!("record desk {desk}"),
            Command::Text(text) => text.clone(),
        }
    }
}

/// Bytes in hex, `-` for none.
pub fn hex(bytes: &[u8]) -> String {
    if bytes.is_empty() {
        return "-".to_string();
    }
    let mut text = String::with_capacity(2 * bytes.len());
    for byte in bytes {
        write!(text, "{byte:02X}").expect("a string takes everything");
    }
    text
}
