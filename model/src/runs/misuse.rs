//! What happens in a run when somebody asks for what is refused: each number of
//! paper 01 that a run can reach, at its edge, and messages given to the wrong
//! party or long after they were sent. Every message was sent in this run, and
//! its bytes are unchanged.

use super::player::{Player, ROOMY};
use super::script::Source;
use crate::format::Kind;
use crate::machine::command::Command;
use crate::machine::desk::Task;
use crate::machine::program::MOST_DESKS;
use crate::machine::server::Room;

impl Player<'_> {
    pub fn misuse(&mut self) {
        match self.random.below(12) {
            0 => self.wrong_begin(),
            1 => self.wrong_while_idle(),
            2..=3 => self.wrong_transfer(),
            4..=5 => self.stray(),
            6..=7 => self.old_message(),
            8..=9 => self.tight_room(),
            10 => self.nobody(),
            _ => self.of_crashed(),
        }
    }

    /// 8, 14, and past the program's bounds.
    fn wrong_begin(&mut self) {
        let desk = self.any_desk();
        let length = match self.random.below(6) {
            0 => 65,
            1 => self.random.within(65, 300),
            2 => *self.random.pick(&[255, 256, 257, 2_048, 2_049]),
            _ => self.random.below(65),
        };
        let note = self.random.word() as u32;
        let task = match self.random.below(3) {
            0 => Task::Read,
            _ => Task::Write(self.random.bytes(length as usize).into()),
        };
        // A begin that would be accepted is no misuse.
        let long = matches!(&task, Task::Write(value) if value.len() > 64);
        if long || self.known.is_running(desk) {
            self.give(Command::Begin { desk, task, note });
        }
    }

    /// 9, of a desk that is idle or has ended.
    fn wrong_while_idle(&mut self) {
        let desk = self.any_desk();
        let server = self.any_server();
        let running = self.known.is_running(desk);
        match self.random.below(3) {
            0 => self.give(Command::Result { desk }),
            1 if !running => self.give(Command::Drop { desk }),
            _ if !running => self.give(Command::Ask {
                desk,
                server,
                room: ROOMY,
            }),
            _ => self.give(Command::Result { desk }),
        };
    }

    /// 10 and 11, and amounts beyond every weight.
    fn wrong_transfer(&mut self) {
        let n = self.known.n();
        let giver = self.any_server();
        let other = (giver + 1) % n;
        self.give(Command::RecordServer { server: giver });
        let spare = self.known.spare(giver);
        let (taker, amount) = match self.random.below(6) {
            0 => (giver, 1),
            1 => (self.far(n), 1),
            2 => (other, 0),
            3 => (other, spare + 1),
            4 => (other, spare + self.random.within(1, 100_000)),
            _ => (other, self.far(spare + 1)),
        };
        self.give(Command::Transfer {
            giver,
            taker,
            amount,
        });
    }

    /// A number from a least one on: often that one, often far beyond, and often
    /// one of which the low bits alone would be below it.
    fn far(&mut self, least: u64) -> u64 {
        match self.random.below(4) {
            0 => least,
            1 => least + self.random.below(40),
            2 => least.max((1 << self.random.within(8, 62)) + self.random.below(least)),
            _ => u64::MAX - self.random.below(3),
        }
    }

    /// 7: a message is given to somebody else than it is for.
    fn stray(&mut self) {
        if self.known.sent.is_empty() {
            return;
        }
        let place = self.random.index(self.known.sent.len());
        let post = self.known.sent[place].clone();
        if self.random.one_in(2) {
            let server = self.any_server();
            let message = Source::Line(post.line);
            let room = self.room();
            let meant = match post.kind {
                Kind::Request => post.server == server,
                Kind::Reply => false,
                Kind::Share => true,
            };
            if !meant {
                self.give(Command::Serve {
                    server,
                    room,
                    message,
                });
            }
        } else {
            let desk = self.any_desk();
            if post.kind != Kind::Reply || post.desk != desk {
                self.hear(desk, post.line);
            }
        }
    }

    /// A message of long ago arrives, perhaps once more.
    fn old_message(&mut self) {
        if self.known.sent.is_empty() {
            return;
        }
        let place = self.random.index(self.known.sent.len());
        let post = self.known.sent[place].clone();
        match post.kind {
            Kind::Request => self.serve(post.server, post.line),
            Kind::Reply => self.hear(post.desk, post.line),
            Kind::Share => {
                let server = self.any_server();
                self.serve(server, post.line);
            }
        }
    }

    /// 13: a buffer too short by one, one that is just long enough, and a place
    /// past the end.
    fn tight_room(&mut self) {
        let server = self.any_server();
        match self.random.below(3) {
            0 => {
                let desk = self.any_desk();
                self.try_rooms(|room| Command::Ask { desk, server, room });
            }
            1 => self.try_rooms(|room| Command::Share { server, room }),
            _ => {
                let mut flying = self.known.flying.iter();
                let request = flying.rfind(|post| post.kind == Kind::Request);
                if let Some(post) = request.cloned() {
                    self.try_rooms(|room| Command::Serve {
                        server: post.server,
                        room,
                        message: Source::Line(post.line),
                    });
                }
            }
        }
    }

    /// The call with a short buffer or a place past the end, then with room, and
    /// then, when the message's length is known, at its edge.
    fn try_rooms(&mut self, call: impl Fn(Room) -> Command<Source>) {
        let len = self.random.below(10);
        let room = match self.random.below(3) {
            0 => Room { at: 0, len },
            1 => Room { at: len + 1, len },
            _ => Room {
                at: self.far(ROOMY.len),
                ..ROOMY
            },
        };
        self.give(call(room));
        let (_, post) = self.give(call(ROOMY));
        let Some(post) = post else { return };
        let length = post.length as u64;
        let at = self.random.below(900);
        self.give(call(Room {
            at,
            len: at + length - 1,
        }));
        let (_, again) = self.give(call(Room {
            at,
            len: at + length,
        }));
        self.known
            .flying
            .extend(again.filter(|post| post.kind != Kind::Share));
    }

    /// A server or desk that there is not, and more desks than the program has.
    fn nobody(&mut self) {
        let n = self.known.n();
        let server = self.far(n);
        let desk = match self.random.below(4) {
            0 => 0,
            _ => self.far(65_536),
        };
        let real = self.any_desk();
        let full = self.known.desks.len() >= MOST_DESKS;
        match self.random.below(9) {
            0 => self.give(Command::Transfer {
                giver: server,
                taker: 0,
                amount: 1,
            }),
            1 => self.give(Command::Share {
                server,
                room: ROOMY,
            }),
            2 => self.give(Command::Crash { server }),
            3 => self.give(Command::RecordServer { server }),
            4 => self.give(Command::Ask {
                desk: real,
                server,
                room: ROOMY,
            }),
            5..=6 if full => {
                let desk = self.random.within(1, 65_535);
                self.give(Command::Result { desk })
            }
            5 => self.give(Command::Begin {
                desk,
                task: Task::Read,
                note: 0,
            }),
            6 => self.give(Command::Result { desk }),
            7 => self.give(Command::RecordDesk { desk }),
            _ => self.give(Command::Drop { desk }),
        };
    }

    /// A step of a server that has crashed.
    fn of_crashed(&mut self) {
        let crashed = (0..self.known.n()).filter(|&server| self.known.crashed[server as usize]);
        let crashed: Vec<u64> = crashed.collect();
        if crashed.is_empty() {
            return;
        }
        let server = *self.random.pick(&crashed);
        match self.random.below(4) {
            0 => self.give(Command::Share {
                server,
                room: ROOMY,
            }),
            1 => self.give(Command::Transfer {
                giver: server,
                taker: 0,
                amount: 1,
            }),
            2 => self.give(Command::Crash { server }),
            _ => self.give(Command::RecordServer { server }),
        };
    }
}
