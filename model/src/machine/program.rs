//! The program `cases` as a model: docs/SCRIPTS.md, "Commands". It keeps one
//! cluster, answers each line, and has the answers of its own (`what`,
//! `bounds`, `no 1`, `crashed`) around those of a store.

use std::fmt;

use super::calls::{Calls, Cluster};
use super::command::{hex, Command};
use super::desk::{Heard, Outcome};
use super::letter::Letter;
use super::number::No;
use super::parse::parse;
use super::record::{desk_line, server_line};
use super::server::Room;
use super::sheet::{Handed, Sheet};
use super::vector::vector;
use crate::answers;
use crate::calls::{self as host, MODEL};
use crate::weights::Config;

/// The program's bounds.
pub const LONGEST_LINE: usize = 8_192;
pub const LONGEST_BYTES: usize = 2_048;
pub const MOST_DESKS: usize = 16;

/// The program's answers.
#[derive(Clone, Debug, PartialEq, Eq)]
pub enum Answer {
    Done,
    Late,
    Wrote { next: u64, bytes: Vec<u8> },
    Told(Outcome),
    Margin(i64),
    Refused(No),
    Crashed,
    What,
    Bounds,
    Words(String),
}

impl fmt::Display for Answer {
    fn fmt(&self, f: &mut fmt::Formatter) -> fmt::Result {
        match self {
            Answer::Done => write!(f, "ok"),
            Answer::Late => write!(f, "late"),
            Answer::Wrote { next, bytes } => write!(f, "ok {next} {}", hex(bytes)),
            Answer::Told(Outcome {
                write,
                register,
                restarts,
            }) => {
                let kind = if *write { "write" } else { "read" };
                let (tag, value) = (register.tag, hex(&register.value));
                write!(f, "ok {kind} {} {} {restarts} {value}", tag.stamp, tag.desk)
            }
            Answer::Margin(margin) => write!(f, "ok {margin}"),
            Answer::Refused(No(number)) => write!(f, "no {number}"),
            Answer::Crashed => write!(f, "crashed"),
            Answer::What => write!(f, "what"),
            Answer::Bounds => write!(f, "bounds"),
            Answer::Words(words) => write!(f, "{words}"),
        }
    }
}

/// The program over a store, with the letters that were sent in this cluster.
pub struct Program<S, C> {
    calls: C,
    cluster: Option<Cluster<S>>,
    sent: Vec<Letter<S>>,
}

/// An answer that ends the work on a line early.
pub type Step<T> = Result<T, Answer>;

impl From<No> for Answer {
    fn from(no: No) -> Answer {
        Answer::Refused(no)
    }
}

impl<S: Sheet, C: Calls<S>> Program<S, C> {
    pub fn new(calls: C) -> Program<S, C> {
        Program {
            calls,
            cluster: None,
            sent: Vec::new(),
        }
    }

    /// The answer to a line, given as text and as the command that it is.
    pub fn answer(&mut self, text: &str, command: &Command<Handed>) -> Option<Answer> {
        answer(text, command, |command| self.obey(command))
    }

    fn obey(&mut self, command: &Command<Handed>) -> Step<Answer> {
        match command {
            Command::House { house } => {
                let config = self.calls.open(house)?;
                self.cluster = Some(Cluster::fresh(config));
                self.sent.clear();
                Ok(Answer::Done)
            }
            Command::Begin { desk, task, note } => {
                let (calls, cluster, desk) = self.desk(*desk)?;
                calls.begin(cluster, desk, task.clone(), *note)?;
                Ok(Answer::Done)
            }
            &Command::Ask { desk, server, room } => {
                let (calls, cluster, desk) = self.desk(desk)?;
                let letter = calls.ask(cluster, desk, server, room)?;
                Ok(self.send(letter, room))
            }
            &Command::Share { server, room } => {
                let (calls, cluster, server) = self.server(server)?;
                let letter = calls.share(cluster, server, room)?;
                Ok(self.send(letter, room))
            }
            Command::Serve {
                server,
                room,
                message,
            } => {
                let config = self.server(*server)?.1.config;
                let letter = S::open(config, message, &self.sent)?;
                let (calls, cluster, server) = self.server(*server)?;
                match calls.serve(cluster, server, &letter, *room)? {
                    Some(reply) => Ok(self.send(reply, *room)),
                    None => Ok(Answer::Done),
                }
            }
            Command::Hear { desk, message } => {
                let config = self.desk(*desk)?.1.config;
                let letter = S::open(config, message, &self.sent)?;
                let (calls, cluster, desk) = self.desk(*desk)?;
                match calls.hear(cluster, desk, &letter)? {
                    Heard::Taken => Ok(Answer::Done),
                    Heard::Late => Ok(Answer::Late),
                }
            }
            &Command::Result { desk } => {
                let (calls, cluster, desk) = self.desk(desk)?;
                Ok(Answer::Told(calls.result(cluster, desk)?))
            }
            &Command::Drop { desk } => {
                let (calls, cluster, desk) = self.desk(desk)?;
                calls.drop(cluster, desk)?;
                Ok(Answer::Done)
            }
            &Command::Margin { desk } => {
                let (calls, cluster, desk) = self.desk(desk)?;
                Ok(Answer::Margin(calls.margin(cluster, desk)?))
            }
            &Command::Transfer {
                giver,
                taker,
                amount,
            } => {
                let (calls, cluster, giver) = self.server(giver)?;
                calls.transfer(cluster, giver, taker, amount)?;
                Ok(Answer::Done)
            }
            &Command::Crash { server } => {
                let (cluster, server) = self.any_server(server)?;
                cluster.crashed[server] = true;
                Ok(Answer::Done)
            }
            &Command::RecordServer { server } => {
                let (cluster, server) = self.any_server(server)?;
                let crashed = cluster.crashed[server];
                let line = server_line(cluster.config, &cluster.servers[server], crashed);
                Ok(Answer::Words(line))
            }
            &Command::RecordDesk { desk } => {
                let (_, cluster, desk) = self.desk(desk)?;
                let config = cluster.config;
                Ok(Answer::Words(desk_line(config, cluster.desk(desk))))
            }
            _ => {
                let config = self.cluster.as_ref().map(|cluster| cluster.config);
                Ok(of_message(config, &MODEL, command))
            }
        }
    }

    /// The cluster, or `no 1` before a house.
    fn cluster(&mut self) -> Step<&mut Cluster<S>> {
        let cluster = self.cluster.as_mut();
        cluster.ok_or(Answer::Refused(No::BAD_HOUSE))
    }

    /// A server's record, crashed or not.
    fn any_server(&mut self, server: u64) -> Step<(&mut Cluster<S>, usize)> {
        let cluster = self.cluster()?;
        if server >= cluster.config.n() as u64 {
            return Err(No::BAD_HOUSE.into());
        }
        Ok((cluster, server as usize))
    }

    /// A server that takes a step.
    fn server(&mut self, server: u64) -> Step<(&C, &mut Cluster<S>, usize)> {
        let (cluster, server) = self.any_server(server)?;
        if cluster.crashed[server] {
            return Err(Answer::Crashed);
        }
        let cluster = self.cluster.as_mut().expect("there is a house");
        Ok((&self.calls, cluster, server))
    }

    /// A desk, opened if it was not named before.
    fn desk(&mut self, desk: u64) -> Step<(&C, &mut Cluster<S>, u16)> {
        let cluster = self.cluster()?;
        let number = match u16::try_from(desk) {
            Ok(number) if number != 0 => number,
            _ => return Err(No::BAD_HOUSE.into()),
        };
        if !cluster.desks.contains_key(&number) && cluster.desks.len() == MOST_DESKS {
            return Err(Answer::Bounds);
        }
        cluster.desk(number);
        let cluster = self.cluster.as_mut().expect("there is a house");
        Ok((&self.calls, cluster, number))
    }

    /// The answer for a message that was written, which is now sent.
    fn send(&mut self, letter: Letter<S>, room: Room) -> Answer {
        let bytes = letter.bytes();
        self.sent.push(letter);
        Answer::Wrote {
            next: room.at + bytes.len() as u64,
            bytes,
        }
    }
}

/// The answer to a line, given as text and as the command that it is: `obey` is
/// given the command if it can be read and is within the program's bounds.
pub fn answer(
    text: &str,
    command: &Command<Handed>,
    obey: impl FnOnce(&Command<Handed>) -> Step<Answer>,
) -> Option<Answer> {
    if text.len() > LONGEST_LINE {
        return Some(Answer::Bounds);
    }
    let within_bounds = |command: &Command<Handed>| {
        check_bounds(command)?;
        obey(command)
    };
    let answer = match command {
        Command::Text(text) => match parse(text) {
            Err(_) => Err(Answer::What),
            Ok(None) => return None,
            Ok(Some(command)) => within_bounds(&command.with_message(|bytes| {
                let bytes = bytes.clone();
                Some(Handed { place: None, bytes })
            })?),
        },
        _ => within_bounds(command),
    };
    Some(answer.unwrap_or_else(|early| early))
}

/// The commands that need no record. Before a house n and f are 0, whatever the
/// list. Those that a C host has are answered by its calls.
pub fn of_message(config: Option<Config>, host: &host::Calls, command: &Command<Handed>) -> Answer {
    let (n, f) = config.map_or((0, 0), |config| (config.n() as u64, config.f() as u64));
    let starts = config.map_or(Vec::new(), Config::starts);
    let number = match command {
        Command::Check { bytes } => (host.check)(n, f, &starts, bytes),
        Command::Weight { server, bytes } => (host.weight)(n, f, &starts, *server, bytes),
        Command::Quorum { map, bytes } => (host.quorum)(n, f, &starts, *map, bytes),
        Command::Seats { bytes } => (host.seats)(bytes),
        Command::Named { map } => match config {
            Some(config) if config.names_servers((*map).into()) => map.count_ones().into(),
            _ => return Answer::Refused(No::BAD_HOUSE),
        },
        Command::Value { bytes } => {
            let register = match answers::open(n, f, &starts, bytes) {
                Ok((_, message)) => message.register,
                Err(_) => None,
            };
            return Answer::Words(hex(register.map_or(&[], |register| register.value)));
        }
        Command::Message { house, bytes } => {
            let words = vector(house.n, house.f, &house.starts(), bytes);
            return words.map_or_else(Answer::Refused, Answer::Words);
        }
        _ => return Answer::What,
    };
    Answer::Words(number.to_string())
}

/// LEN and HEX within the program's bounds.
fn check_bounds(command: &Command<Handed>) -> Step<()> {
    let within = match command {
        Command::Begin {
            task: super::desk::Task::Write(value),
            ..
        } => value.len() <= LONGEST_BYTES,
        Command::Ask { room, .. } | Command::Share { room, .. } => fits(room),
        Command::Serve { room, message, .. } => fits(room) && message.bytes.len() <= LONGEST_BYTES,
        Command::Hear { message, .. } => message.bytes.len() <= LONGEST_BYTES,
        Command::Check { bytes }
        | Command::Weight { bytes, .. }
        | Command::Quorum { bytes, .. }
        | Command::Seats { bytes }
        | Command::Value { bytes }
        | Command::Message { bytes, .. } => bytes.len() <= LONGEST_BYTES,
        _ => true,
    };
    if within {
        Ok(())
    } else {
        Err(Answer::Bounds)
    }
}

fn fits(room: &Room) -> bool {
    room.len <= LONGEST_BYTES as u64
}
