//! A run as a script: lines in which a message is named by the line that sent
//! it, so that lines can be left out and the rest still means the same.

use std::collections::HashMap;

use super::dress::dressed;
use super::seen::wrote;
use super::store::Store;
use crate::machine::command::Command;
use crate::machine::sheet::Handed;

/// How a script names a message.
#[derive(Clone, Debug, PartialEq, Eq)]
pub enum Source {
    /// What the line of this number sent.
    Line(usize),
    /// Bytes that nobody sent.
    Bytes(Vec<u8>),
}

/// A line of a script. Its number stays when others are left out.
#[derive(Clone, Debug, PartialEq, Eq)]
pub struct Entry {
    pub number: usize,
    pub command: Command<Source>,
    /// How the line is written; 0 is plainly.
    pub dress: u64,
}

/// A line as it was given to a store, and the answer.
#[derive(Clone, Debug, PartialEq, Eq)]
pub struct Turn {
    pub number: usize,
    pub command: Command<Handed>,
    pub text: String,
    pub answer: Option<String>,
}

impl Turn {
    /// The answer, empty for a line without a word.
    pub fn answer(&self) -> &str {
        self.answer.as_deref().unwrap_or("")
    }

    /// The bytes that the line sent, if it sent any.
    pub fn sent(&self) -> Option<Vec<u8>> {
        match self.command {
            Command::Ask { .. } | Command::Share { .. } | Command::Serve { .. } => {
                wrote(self.answer()).map(|(_, bytes)| bytes)
            }
            _ => None,
        }
    }

    /// Whether the store took a step, accepted or refused. A server or desk
    /// that there is not, and a server that crashed, take none; of the steps
    /// only ask gives 1 by itself.
    pub fn is_step(&self) -> bool {
        match self.answer() {
            "what" | "bounds" | "crashed" => false,
            "no 1" => matches!(
                self.command,
                Command::Ask {
                    desk: 1..=65_535,
                    ..
                }
            ),
            _ => self.command.is_step(),
        }
    }
}

/// A store and the messages sent in its cluster so far, by their place and by
/// the line that sent them.
pub struct Stage<'a> {
    store: &'a mut dyn Store,
    sent: Vec<Vec<u8>>,
    places: HashMap<usize, usize>,
}

impl<'a> Stage<'a> {
    pub fn new(store: &'a mut dyn Store) -> Stage<'a> {
        Stage {
            store,
            sent: Vec::new(),
            places: HashMap::new(),
        }
    }

    /// Gives a line to the store. `None` if it names a message that was not
    /// sent in this cluster: then the step is not made.
    pub fn play(&mut self, entry: &Entry) -> Option<Turn> {
        let command = entry.command.with_message(|source| self.handed(source))?;
        let text = dressed(&command.line(|message| &message.bytes), entry.dress);
        let answer = self.store.answer(&text, &command);
        let turn = Turn {
            number: entry.number,
            command,
            text,
            answer,
        };
        if matches!(turn.command, Command::House { .. }) && turn.answer() == "ok" {
            self.sent.clear();
            self.places.clear();
        }
        if let Some(bytes) = turn.sent() {
            self.places.insert(turn.number, self.sent.len());
            self.sent.push(bytes);
        }
        Some(turn)
    }

    fn handed(&self, source: &Source) -> Option<Handed> {
        match source {
            Source::Line(number) => {
                let place = *self.places.get(number)?;
                Some(Handed {
                    place: Some(place),
                    bytes: self.sent[place].clone(),
                })
            }
            Source::Bytes(bytes) => Some(Handed {
                place: None,
                bytes: bytes.clone(),
            }),
        }
    }
}

/// Plays a whole script.
pub fn replay(entries: &[Entry], store: &mut dyn Store) -> Vec<Turn> {
    let mut stage = Stage::new(store);
    entries
        .iter()
        .filter_map(|entry| stage.play(entry))
        .collect()
}

/// The same script with the record of its party shown after every line. The
/// lines have twice their numbers, and those that are put in the odd ones.
pub fn with_records(entries: &[Entry]) -> Vec<Entry> {
    let doubled = |source: &Source| match source {
        Source::Line(number) => Some(Source::Line(2 * number)),
        Source::Bytes(bytes) => Some(Source::Bytes(bytes.clone())),
    };
    let mut script = Vec::new();
    for entry in entries {
        let number = 2 * entry.number;
        let server = entry.command.server();
        let server = server.map(|server| Command::RecordServer { server });
        let desk = entry.command.desk();
        let desk = desk.map(|desk| Command::RecordDesk { desk });
        let command = entry.command.with_message(doubled);
        script.push(Entry {
            number,
            command: command.expect("every message has a name"),
            dress: entry.dress,
        });
        script.extend(server.or(desk).map(|command| Entry {
            number: number + 1,
            command,
            dress: 0,
        }));
    }
    script
}
