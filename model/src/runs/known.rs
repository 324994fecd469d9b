//! What the player of a run knows of the cluster, from the answers alone: which
//! desks are at work, which messages are on their way, who crashed, and what
//! each server weighs by its own sheet.

use std::collections::BTreeMap;

use super::script::Turn;
use super::seen::{shown, Mode};
use crate::format::{read, Kind};
use crate::machine::command::Command;
use crate::weights::Config;

/// A message, named by the line that sent it.
#[derive(Clone, Debug)]
pub struct Post {
    pub line: usize,
    pub kind: Kind,
    /// The addressee of a request, else the sender.
    pub server: u64,
    pub desk: u64,
    pub round: u32,
    /// For a share on its way: where to.
    pub to: u64,
    pub length: usize,
}

#[derive(Clone, Debug, Default)]
pub struct KnownDesk {
    pub running: bool,
    pub round: u32,
    pub phase: u8,
    pub answered: Vec<usize>,
    /// Whether it has a result that was not asked for.
    pub fresh_result: bool,
    /// The servers that its operation goes by at first.
    pub favours: Vec<u64>,
    /// Choices made for this operation so far.
    pub tries: u64,
}

/// What is known of the cluster that stands.
#[derive(Clone, Debug)]
pub struct Known {
    pub config: Config,
    pub desks: BTreeMap<u64, KnownDesk>,
    pub crashed: Vec<bool>,
    pub weights: Vec<i64>,
    /// On their way.
    pub flying: Vec<Post>,
    /// All that were sent.
    pub sent: Vec<Post>,
}

impl Known {
    pub fn new(config: Config) -> Known {
        Known {
            config,
            desks: BTreeMap::new(),
            crashed: vec![false; config.n()],
            weights: config.start_weights()[..config.n()].to_vec(),
            flying: Vec::new(),
            sent: Vec::new(),
        }
    }

    pub fn n(&self) -> u64 {
        self.config.n() as u64
    }

    /// The servers that have not crashed.
    pub fn alive(&self) -> Vec<u64> {
        let alive = |server: &u64| !self.crashed[*server as usize];
        (0..self.n()).filter(alive).collect()
    }

    /// The desks that have an operation running.
    pub fn at_work(&self) -> Vec<u64> {
        let running = self.desks.iter().filter(|(_, desk)| desk.running);
        running.map(|(number, _)| *number).collect()
    }

    pub fn is_running(&self, desk: u64) -> bool {
        self.desks.get(&desk).is_some_and(|desk| desk.running)
    }

    /// What a server can give and stay above the floor.
    pub fn spare(&self, server: u64) -> u64 {
        let spare = self.config.spare(self.weights[server as usize]);
        spare.max(0) as u64
    }

    /// Takes in a line and its answer. Gives what it sent.
    pub fn see(&mut self, turn: &Turn) -> Option<Post> {
        let answer = turn.answer();
        if let (Some(desk @ 1..=65_535), true) = (turn.command.desk(), answer != "bounds") {
            self.desks.entry(desk).or_default();
        }
        match turn.command {
            Command::Begin { desk, .. } if answer == "ok" => {
                let known = self.desks.entry(desk).or_default();
                known.running = true;
                known.round += 1;
                known.phase = 1;
                known.answered.clear();
                known.fresh_result = false;
                known.tries = 0;
            }
            Command::Drop { desk } if answer == "ok" => {
                self.desks.entry(desk).or_default().running = false;
            }
            Command::Result { desk } => {
                if let Some(known) = self.desks.get_mut(&desk) {
                    known.fresh_result = false;
                }
            }
            Command::Crash { server } if answer == "ok" => self.crashed[server as usize] = true,
            Command::RecordServer { server } => {
                if let Some(shown) = shown(answer) {
                    self.weights[server as usize] = shown.weights[server as usize];
                }
            }
            Command::RecordDesk { desk } => {
                if let Some(shown) = shown(answer).and_then(|shown| shown.desk) {
                    let known = self.desks.entry(desk).or_default();
                    known.fresh_result |= known.running && shown.mode == Mode::Ended;
                    known.running = shown.mode == Mode::Running;
                    known.round = shown.round;
                    known.phase = shown.phase;
                    known.answered = shown.answered;
                }
            }
            _ => {}
        }
        let bytes = turn.sent()?;
        let message = read(self.config, &bytes).ok()?;
        let post = Post {
            line: turn.number,
            kind: message.kind,
            server: message.server.into(),
            desk: message.desk.unwrap_or(0).into(),
            round: message.round.unwrap_or(0),
            to: 0,
            length: bytes.len(),
        };
        self.sent.push(post.clone());
        Some(post)
    }
}
