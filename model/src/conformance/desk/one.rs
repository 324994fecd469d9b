//! A section of one desk, made by hand.

use crate::conformance::line::{reply, Line};
use crate::format::Message;
use crate::machine::command::{Command, House};
use crate::machine::desk::Task;
use crate::machine::server::Room;
use crate::runs::player::ROOMY;
use crate::write::write;

/// The lines so far, from a house on.
pub struct One {
    desk: u16,
    pub lines: Vec<Line>,
}

impl One {
    /// A fresh level cluster, with this desk.
    pub fn new(n: u64, f: u64, desk: u16) -> One {
        One::of(House::level(n, f), desk)
    }

    /// The same, where the servers need not start level.
    pub fn of(house: impl Into<House>, desk: u16) -> One {
        let house = house.into();
        One {
            desk,
            lines: vec![Command::House { house }],
        }
    }

    fn number(&self) -> u64 {
        self.desk.into()
    }

    pub fn record(&mut self) {
        let desk = self.number();
        self.lines.push(Command::RecordDesk { desk });
    }

    pub fn read(&mut self, note: u32) {
        self.begin(Task::Read, note);
    }

    pub fn write(&mut self, value: &[u8], note: u32) {
        self.begin(Task::Write(value.into()), note);
    }

    fn begin(&mut self, task: Task, note: u32) {
        let desk = self.number();
        self.lines.push(Command::Begin { desk, task, note });
    }

    /// It writes a request, with room for every one.
    pub fn ask(&mut self, server: u64) {
        self.ask_in(server, ROOMY);
    }

    pub fn ask_in(&mut self, server: u64, room: Room) {
        let desk = self.number();
        self.lines.push(Command::Ask { desk, server, room });
    }

    /// It hears a message.
    pub fn hear(&mut self, message: &Message) {
        self.hear_bytes(write(message));
    }

    pub fn hear_bytes(&mut self, message: Vec<u8>) {
        let desk = self.number();
        self.lines.push(Command::Hear { desk, message });
    }

    /// A reply to this desk, with no register, sheet or note.
    pub fn reply(&self, server: u8, round: u32) -> Message<'static> {
        reply(server, self.desk, round)
    }

    pub fn result(&mut self) {
        let desk = self.number();
        self.lines.push(Command::Result { desk });
    }

    pub fn margin(&mut self) {
        let desk = self.number();
        self.lines.push(Command::Margin { desk });
    }

    pub fn abandon(&mut self) {
        let desk = self.number();
        self.lines.push(Command::Drop { desk });
    }
}
