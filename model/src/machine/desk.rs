//! The desk, which is the client: paper 01, "Desk", and its margin of paper 02,
//! N1. Hear is made of parts (which replies are current, restart, mark, choose,
//! finish), so that a wrong store can exchange one and share the rest.

use std::rc::Rc;

use super::letter::Letter;
use super::number::No;
use super::register::{Pair, Register, Tag};
use super::server::Room;
use super::sheet::{Party, Sheet};
use crate::format::{Kind, LONGEST_VALUE};
use crate::weights::Config;

#[derive(Clone, Debug)]
pub struct Desk<S> {
    pub number: u16,
    pub pair: Pair<S>,
    pub round: u32,
    pub activity: Activity,
}

/// The operation, if one runs, or the result of the last one.
#[derive(Clone, Debug, PartialEq, Eq)]
pub enum Activity {
    None,
    Running(Operation),
    Ended(Outcome),
}

#[derive(Clone, Debug, PartialEq, Eq)]
pub struct Operation {
    pub task: Task,
    pub note: u32,
    pub phase: Phase,
    /// The servers that answered in this round.
    pub answered: u16,
    pub restarts: u32,
}

#[derive(Clone, Debug, PartialEq, Eq)]
pub enum Task {
    Read,
    Write(Rc<[u8]>),
}

/// Phase 2 has the register that phase 1 chose.
#[derive(Clone, Debug, PartialEq, Eq)]
pub enum Phase {
    First,
    Second(Register),
}

/// What a result call gives.
#[derive(Clone, Debug, PartialEq, Eq)]
pub struct Outcome {
    pub write: bool,
    pub register: Register,
    pub restarts: u32,
}

/// What hear answers where it is not refused.
#[derive(Clone, Copy, Debug, PartialEq, Eq)]
pub enum Heard {
    Taken,
    Late,
}

impl<S: Sheet> Desk<S> {
    pub fn fresh(number: u16) -> Desk<S> {
        Desk {
            number,
            pair: Pair::fresh(),
            round: 0,
            activity: Activity::None,
        }
    }

    pub fn begin(&mut self, task: Task, note: u32) -> Result<(), No> {
        if matches!(&task, Task::Write(value) if value.len() > LONGEST_VALUE.into()) {
            return Err(No::LONG);
        }
        if self.running().is_some() {
            return Err(No::BUSY);
        }
        self.round = next(self.round)?;
        self.activity = Activity::Running(Operation {
            task,
            note,
            phase: Phase::First,
            answered: 0,
            restarts: 0,
        });
        Ok(())
    }

    /// A request to a server, if the buffer has room.
    pub fn ask(&self, config: Config, server: u64, room: Room) -> Result<Letter<S>, No> {
        let operation = self.running().ok_or(No::IDLE)?;
        if server >= config.n() as u64 {
            return Err(No::BAD_HOUSE);
        }
        let letter = Letter {
            kind: Kind::Request,
            server: server as u8,
            desk: self.number,
            round: self.round,
            note: operation.note,
            pair: self.pair.clone(),
        };
        if room.holds(letter.bytes().len()) {
            Ok(letter)
        } else {
            Err(No::NARROW)
        }
    }

    pub fn hear(&mut self, config: Config, letter: &Letter<S>) -> Result<Heard, No> {
        let Some(operation) = self.current(letter)? else {
            return Ok(Heard::Late);
        };
        if S::clash(config, Party::Desk, &self.pair, &letter.pair) {
            return Err(No::CLASH);
        }
        if self.pair.sheet.lacks(&letter.pair.sheet) {
            self.restart(operation, letter)?;
        } else {
            self.mark(config, operation, letter)?;
        }
        Ok(Heard::Taken)
    }

    pub fn result(&self) -> Result<Outcome, No> {
        match &self.activity {
            Activity::Ended(outcome) => Ok(outcome.clone()),
            _ => Err(No::IDLE),
        }
    }

    /// The margin of the servers that answered in this round, by the desk's own
    /// sheet: how far the operation is from a quorum.
    pub fn margin(&self, config: Config) -> Result<i64, No> {
        let operation = self.running().ok_or(No::IDLE)?;
        Ok(self.pair.sheet.margin(config, operation.answered))
    }

    pub fn drop(&mut self) -> Result<(), No> {
        self.running().ok_or(No::IDLE)?;
        self.activity = Activity::None;
        Ok(())
    }

    fn running(&self) -> Option<&Operation> {
        match &self.activity {
            Activity::Running(operation) => Some(operation),
            _ => None,
        }
    }

    /// The running operation, if the letter is a reply to this desk in its
    /// current round; `None` if it is late.
    pub fn current(&self, letter: &Letter<S>) -> Result<Option<Operation>, No> {
        if letter.kind != Kind::Reply || letter.desk != self.number {
            return Err(No::STRAY);
        }
        let in_round = letter.round == self.round;
        Ok(self.running().filter(|_| in_round).cloned())
    }

    /// A larger sheet: pairs joined, and the round once more.
    pub fn restart(&mut self, operation: Operation, letter: &Letter<S>) -> Result<(), No> {
        self.round = next(self.round)?;
        self.pair = self.pair.join(&letter.pair);
        self.activity = Activity::Running(Operation {
            answered: 0,
            restarts: operation.restarts + 1,
            ..operation
        });
        Ok(())
    }

    /// An equal sheet: registers joined, the server marked, and on a quorum the
    /// phase ends.
    pub fn mark(
        &mut self,
        config: Config,
        mut operation: Operation,
        letter: &Letter<S>,
    ) -> Result<(), No> {
        operation.answered |= 1 << letter.server;
        let quorum = self.pair.sheet.margin(config, operation.answered) > 0;
        self.marked(operation, letter, quorum)
    }

    /// A mark, where it is known whether the phase ends.
    pub fn marked(
        &mut self,
        operation: Operation,
        letter: &Letter<S>,
        quorum: bool,
    ) -> Result<(), No> {
        let pair = self.pair.join(&letter.pair);
        match &operation.phase {
            Phase::First if quorum => {
                let chosen = chosen(&operation.task, self.number, &pair.register)?;
                self.choose(operation, pair, chosen)
            }
            Phase::Second(chosen) if quorum => {
                self.finish(&operation, pair, chosen.clone());
                Ok(())
            }
            _ => {
                self.pair = pair;
                self.activity = Activity::Running(operation);
                Ok(())
            }
        }
    }

    /// Phase 1 ends with a register; phase 2 begins in a new round.
    pub fn choose(
        &mut self,
        operation: Operation,
        pair: Pair<S>,
        chosen: Register,
    ) -> Result<(), No> {
        self.round = next(self.round)?;
        self.pair = Pair {
            register: chosen.clone(),
            ..pair
        };
        self.activity = Activity::Running(Operation {
            phase: Phase::Second(chosen),
            answered: 0,
            ..operation
        });
        Ok(())
    }

    /// The operation ends with a register.
    pub fn finish(&mut self, operation: &Operation, pair: Pair<S>, register: Register) {
        self.pair = pair;
        self.activity = Activity::Ended(Outcome {
            write: operation.task != Task::Read,
            register,
            restarts: operation.restarts,
        });
    }
}

/// The register that phase 1 chooses: for a read the held one, for a write the
/// next stamp, the desk's own number and the new value.
pub fn chosen(task: &Task, desk: u16, held: &Register) -> Result<Register, No> {
    match task {
        Task::Read => Ok(held.clone()),
        Task::Write(value) => Ok(Register {
            tag: Tag {
                stamp: next(held.tag.stamp)?,
                desk,
            },
            value: value.clone(),
        }),
    }
}

/// The next round or stamp, or 12.
fn next(number: u32) -> Result<u32, No> {
    number.checked_add(1).ok_or(No::SPENT)
}
