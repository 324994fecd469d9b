//! The player of a run: gives a store one line after the other and keeps the
//! script, the turns and what is known from the answers.

use super::asides::Asides;
use super::known::{Known, Post};
use super::pace::Pace;
use super::script::{replay, with_records, Entry, Source, Stage, Turn};
use super::seen::refused;
use super::store::Store;
use crate::machine::command::{Command, House};
use crate::machine::server::Room;
use crate::random::Random;
use crate::weights::Config;

/// A buffer with room for every message.
pub const ROOMY: Room = Room { at: 0, len: 1_111 };

/// A run that was played: its script, and what the store answered.
pub struct Run {
    pub entries: Vec<Entry>,
    pub turns: Vec<Turn>,
    /// The steps of the store among them.
    pub steps: u64,
}

impl Run {
    /// The same run, as a store plays it, with the record of its party shown
    /// after every line.
    pub fn with_records(&self, store: &mut dyn Store) -> Run {
        let entries = with_records(&self.entries);
        let turns = replay(&entries, store);
        Run {
            entries,
            turns,
            steps: self.steps,
        }
    }
}

pub struct Player<'a> {
    pub random: Random,
    /// What is asked in between.
    pub asides: Asides,
    pub pace: Pace,
    pub known: Known,
    pub entries: Vec<Entry>,
    pub turns: Vec<Turn>,
    /// Steps of the store so far.
    pub steps: u64,
    /// Choices of what to do next so far.
    pub choices: u64,
    stage: Stage<'a>,
}

impl<'a> Player<'a> {
    pub fn new(random: Random, pace: Pace, store: &'a mut dyn Store) -> Player<'a> {
        let config = pace.house.config().expect("the house is lawful");
        Player {
            asides: Asides::of_run(&random),
            random,
            pace,
            known: Known::new(config),
            entries: Vec::new(),
            turns: Vec::new(),
            steps: 0,
            choices: 0,
            stage: Stage::new(store),
        }
    }

    /// Whether the run has not come to its end. Choices that lead to no line
    /// are bounded too.
    pub fn goes_on(&self) -> bool {
        self.steps < self.pace.steps && self.choices < 20 * self.pace.steps
    }

    /// The run as it was played.
    pub fn finish(self) -> Run {
        Run {
            entries: self.entries,
            turns: self.turns,
            steps: self.steps,
        }
    }

    /// Gives the store a line. What it sent, if anything, is not on its way yet.
    pub fn give(&mut self, command: Command<Source>) -> (String, Option<Post>) {
        let text = matches!(command, Command::Text(_));
        let dress = match self.pace.dressed && !text {
            true => dress(&mut self.random),
            false => 0,
        };
        self.give_dressed(command, dress)
    }

    /// Gives it a line that is asked in between.
    pub fn give_aside(&mut self, command: Command<Source>) {
        let dress = match self.pace.dressed {
            true => dress(&mut self.asides.random),
            false => 0,
        };
        self.asides.lines.insert(self.entries.len());
        self.give_dressed(command, dress);
    }

    fn give_dressed(&mut self, command: Command<Source>, dress: u64) -> (String, Option<Post>) {
        let entry = Entry {
            number: self.entries.len(),
            command,
            dress,
        };
        let Some(turn) = self.stage.play(&entry) else {
            return (String::new(), None);
        };
        if let (Command::House { house }, "ok") = (&turn.command, turn.answer()) {
            self.known = Known::new(taken(house));
        }
        let post = self.known.see(&turn);
        self.steps += u64::from(turn.is_step());
        let answer = turn.answer().to_string();
        self.entries.push(entry);
        self.turns.push(turn);
        (answer, post)
    }

    /// True so often out of 1,000.
    pub fn chance(&mut self, rate: u64) -> bool {
        self.random.below(1_000) < rate
    }

    /// One of the run's desks.
    pub fn any_desk(&mut self) -> u64 {
        *self.random.pick(&self.pace.desks)
    }

    pub fn any_server(&mut self) -> u64 {
        let n = self.known.n();
        self.random.below(n)
    }

    /// A desk hears a message; if it takes it, its record is shown.
    pub fn hear(&mut self, desk: u64, line: usize) {
        let message = Source::Line(line);
        let (answer, _) = self.give(Command::Hear { desk, message });
        if answer == "ok" {
            self.give(Command::RecordDesk { desk });
        }
    }

    /// A server takes a message; a reply goes on its way.
    pub fn serve(&mut self, server: u64, line: usize) {
        let room = self.room();
        let message = Source::Line(line);
        let (answer, post) = self.give(Command::Serve {
            server,
            room,
            message,
        });
        self.known.flying.extend(post);
        if answer == "ok" {
            self.give(Command::RecordServer { server });
        }
    }

    /// Shows the record of a party whose last step was refused or late.
    pub fn show_untaken(&mut self) {
        let Some(turn) = self.latest().next() else {
            return;
        };
        if refused(turn.answer()).is_none() && turn.answer() != "late" {
            return;
        }
        let command = &turn.command;
        if let Some(server) = command.server().filter(|server| *server < self.known.n()) {
            self.give(Command::RecordServer { server });
        } else if let Some(desk @ 1..=65_535) = command.desk() {
            self.give(Command::RecordDesk { desk });
        }
    }

    /// A buffer, most often from place 0, always with room for any message.
    pub fn room(&mut self) -> Room {
        match self.random.below(8) {
            0 => Room {
                at: self.random.within(1, 937),
                len: 2_048,
            },
            1 => Room {
                at: 0,
                len: self.random.within(1_111, 2_048),
            },
            _ => ROOMY,
        }
    }
}

/// The cluster of a house that was accepted, also by a store that gets the test
/// of its list wrong.
fn taken(house: &House) -> Config {
    let untested = |_| Config::untested(house.n as usize, house.f as usize, &house.starts());
    house.config().unwrap_or_else(untested)
}

/// How a line is written: plainly, or now and then in another way.
fn dress(random: &mut Random) -> u64 {
    match random.one_in(4) {
        true => random.word(),
        false => 0,
    }
}
