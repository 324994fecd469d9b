//! Somebody who sees the lines and the answers alone, and checks the clauses of
//! demand 3 on them: the operations' clauses, and the sheets, that on every
//! sheet held or sent the weights total W, each is above the floor and any n − f
//! servers are a quorum (paper 01, "Sheets"). And that margins which are told are
//! those of operations that go on (paper 02, N1).

use std::fmt;

use super::operations::{Breach, Operations};
use super::script::Turn;
use super::seen::{margin, refused, shown, told, Shown};
use crate::format::read;
use crate::machine::command::Command;
use crate::machine::desk::Task;
use crate::place::Place;
use crate::weights::Config;

/// What is asked of a run, by demand 3 and beside it.
#[derive(Clone, Copy, Debug, PartialEq, Eq, PartialOrd, Ord, Hash)]
pub enum Clause {
    /// Every answer and every byte sent is the plain machine's.
    Equality,
    Order,
    Values,
    Restarts,
    Sheets,
    /// The margin of an operation that runs is from −W to 0. This is no clause of
    /// demand 3.
    Margins,
}

impl fmt::Display for Clause {
    fn fmt(&self, f: &mut fmt::Formatter) -> fmt::Result {
        write!(f, "{}", format!("{self:?}").to_lowercase())
    }
}

/// A clause that a run breaks, the line that shows it, and how, in words.
#[derive(Clone, Debug)]
pub struct Found {
    pub clause: Clause,
    pub number: usize,
    pub words: String,
}

/// What was seen of the cluster that stands now.
#[derive(Default)]
pub struct Observer {
    config: Option<Config>,
    operations: Operations,
    last_line: usize,
}

impl Observer {
    /// Looks at a line and its answer.
    pub fn see(&mut self, turn: &Turn) -> Vec<Found> {
        self.last_line = turn.number;
        let breaches = self.breaches(turn);
        let found = breaches.into_iter().map(|(clause, words)| Found {
            clause,
            number: turn.number,
            words,
        });
        found.collect()
    }

    /// What can be said at the end of the list only.
    pub fn close(&self) -> Option<Found> {
        let (clause, words) = self.operations.values()?;
        Some(Found {
            clause,
            number: self.last_line,
            words,
        })
    }

    pub fn operations(&self) -> &Operations {
        &self.operations
    }

    fn breaches(&mut self, turn: &Turn) -> Vec<Breach> {
        let answer = turn.answer();
        if let Command::House { house } = &turn.command {
            if answer == "ok" {
                let before = self.operations.values();
                let config = house.config();
                self.config = config.ok();
                self.operations = Operations::default();
                return before.into_iter().chain(opened(config)).collect();
            }
        }
        let Some(config) = self.config else {
            return Vec::new();
        };
        if refused(answer).is_some() {
            return Vec::new();
        }
        match &turn.command {
            Command::Begin { desk, task, .. } if answer == "ok" => {
                let writes = match task {
                    Task::Read => None,
                    Task::Write(value) => Some(value.to_vec()),
                };
                self.operations.begin(*desk as u16, writes);
                Vec::new()
            }
            Command::Drop { desk } if answer == "ok" => {
                self.operations.drop(*desk as u16);
                Vec::new()
            }
            Command::Hear { desk, message } if answer == "ok" => {
                if let Ok(reply) = read(config, &message.bytes) {
                    self.operations.hear(*desk as u16, &reply.ledger);
                }
                Vec::new()
            }
            Command::Result { desk } => match told(answer) {
                Some(told) => self.operations.told(*desk as u16, &told),
                None => Vec::new(),
            },
            Command::Margin { desk } => match margin(answer) {
                Some(margin) => goes_on(config, *desk, margin).into_iter().collect(),
                None => Vec::new(),
            },
            Command::RecordServer { .. } => match shown(answer) {
                Some(shown) => sound(config, &shown).into_iter().collect(),
                None => Vec::new(),
            },
            Command::RecordDesk { desk } => match shown(answer) {
                Some(shown) => {
                    let desk_shown = shown.desk.as_ref().expect("the line is a desk's");
                    let mut breaches = self.operations.show(*desk as u16, desk_shown);
                    breaches.extend(sound(config, &shown));
                    breaches
                }
                None => Vec::new(),
            },
            _ => match turn.sent() {
                Some(bytes) => sound_message(config, &bytes).into_iter().collect(),
                None => Vec::new(),
            },
        }
    }
}

/// The clause of sheets, on the fresh one of a house that was opened.
fn opened(config: Result<Config, Place>) -> Option<Breach> {
    let place = config.err()?;
    let words = format!("a house was opened: {}", place.words());
    Some((Clause::Sheets, words))
}

/// Above 0 the phase would have ended; and no weight is below 0, so that the
/// least is that of nobody.
fn goes_on(config: Config, desk: u64, margin: i64) -> Option<Breach> {
    if (-config.total()..=0).contains(&margin) {
        return None;
    }
    let words = format!("the operation of desk {desk} runs with a margin of {margin}");
    Some((Clause::Margins, words))
}

/// The clause of sheets, on a record.
fn sound(config: Config, shown: &Shown) -> Option<Breach> {
    let weights = shown.ledger.weights(config);
    if shown.starts != config.starts() || shown.weights != weights[..config.n()] {
        let words = "a record's weights are not those of its house and cells".to_string();
        return Some((Clause::Sheets, words));
    }
    sound_weights(config, &shown.weights)
}

/// The same on a message.
fn sound_message(config: Config, bytes: &[u8]) -> Option<Breach> {
    match read(config, bytes) {
        Ok(message) => sound_weights(config, &message.ledger.weights(config)[..config.n()]),
        Err(fault) => {
            let words = format!(
                "a message that was sent is refused: {}",
                fault.place.words()
            );
            Some((Clause::Sheets, words))
        }
    }
}

fn sound_weights(config: Config, weights: &[i64]) -> Option<Breach> {
    let total: i64 = weights.iter().sum();
    let light = weights.iter().any(|&weight| !config.above_floor(weight));
    // The lightest n − f servers are a quorum if any are.
    let mut sorted = weights.to_vec();
    sorted.sort_unstable();
    let lightest: i64 = sorted[..config.n() - config.f()].iter().sum();
    if total == config.total() && !light && 2 * lightest > config.total() {
        return None;
    }
    let words = format!("a sheet has the weights {weights:?}");
    Some((Clause::Sheets, words))
}
