//! The proved library for C hosts as a store: it keeps a cluster of the records
//! of include/tovridsa.h and answers each line by the library's call. The
//! program's own answers (docs/SCRIPTS.md) stand around the calls as they do
//! around the model's.
//!
//! Where a call does to a record or a buffer what the header rules out, the
//! answer is a line that no model gives. So it is found and made short as every
//! other difference is.

mod buffer;
mod held;

use std::collections::BTreeMap;
use std::fmt::Debug;

use super::script::Turn;
use super::store::Store;
use crate::answers::refusal;
use crate::calls::PROVED;
use crate::machine::command::{Command, House};
use crate::machine::desk::{Outcome, Task};
use crate::machine::number::No;
use crate::machine::program::{answer, of_message, Answer, Step, MOST_DESKS};
use crate::machine::record::{desk_line, server_line};
use crate::machine::sheet::Handed;
use crate::proved::records::{
    Desk, DeskAnswer, Register, ResultAnswer, ServeAnswer, Server, ServerAnswer,
};
use crate::proved::{desks, servers};
use crate::weights::Config;
use buffer::Buffer;

/// The answer of hear to a reply that comes too late.
const LATE: i64 = 1;

/// The records of a cluster, once there is a house.
#[derive(Default)]
pub struct Library {
    cluster: Option<Cluster>,
}

struct Cluster {
    config: Config,
    servers: Vec<Server>,
    crashed: Vec<bool>,
    desks: BTreeMap<u64, Desk>,
}

impl Store for Library {
    fn answer(&mut self, text: &str, command: &Command<Handed>) -> Option<String> {
        let answer = answer(text, command, |command| self.obey(command))?;
        Some(answer.to_string())
    }
}

/// The same lines with the answers of a fresh cluster of the library.
pub fn answered(expected: &[Turn]) -> Vec<Turn> {
    let mut library = Library::default();
    let mut turns = expected.to_vec();
    for turn in &mut turns {
        turn.answer = library.answer(&turn.text, &turn.command);
    }
    turns
}

impl Library {
    fn obey(&mut self, command: &Command<Handed>) -> Step<Answer> {
        match command {
            Command::House { house } => {
                self.cluster = Some(Cluster::open(house)?);
                Ok(Answer::Done)
            }
            Command::Begin { desk, task, note } => {
                let desk = self.desk(*desk)?;
                let begun = match task {
                    Task::Read => desks::begin_read(*desk, *note),
                    Task::Write(value) => desks::begin_write(*desk, *note, value),
                };
                put(desk, begun.desk, begun.answer)?;
                done(begun.answer)
            }
            &Command::Ask { desk, server, room } => {
                let desk = *self.desk(desk)?;
                let mut buffer = Buffer::new(room);
                let (out, at) = buffer.lent();
                let next = desks::ask(desk, server, out, at);
                buffer.wrote(next)
            }
            &Command::Share { server, room } => {
                let server = *self.server(server)?;
                let mut buffer = Buffer::new(room);
                let (out, at) = buffer.lent();
                let next = servers::share(server, out, at);
                buffer.wrote(next)
            }
            Command::Serve {
                server: number,
                room,
                message,
            } => {
                let held = self.server(*number)?;
                let mut buffer = Buffer::new(*room);
                let (out, at) = buffer.lent();
                let served = servers::serve(*held, &message.bytes, out, at);
                let ServeAnswer {
                    answer,
                    end,
                    server,
                } = served;
                put(held, server, answer)?;
                buffer.answer(done(answer), end)
            }
            Command::Hear { desk, message } => hear(self.desk(*desk)?, &message.bytes),
            &Command::Result { desk } => told(&desks::result(*self.desk(desk)?)),
            &Command::Margin { desk } => margin(desks::margin(*self.desk(desk)?)),
            &Command::Drop { desk } => {
                let held = self.desk(desk)?;
                let DeskAnswer { answer, desk } = desks::drop(*held);
                put(held, desk, answer)?;
                done(answer)
            }
            &Command::Transfer {
                giver,
                taker,
                amount,
            } => {
                let held = self.server(giver)?;
                let ServerAnswer { answer, server } = servers::transfer(*held, taker, amount);
                put(held, server, answer)?;
                done(answer)
            }
            &Command::Crash { server } => {
                let (cluster, server) = self.any_server(server)?;
                cluster.crashed[server] = true;
                Ok(Answer::Done)
            }
            &Command::RecordServer { server } => {
                let (cluster, server) = self.any_server(server)?;
                let record = &cluster.servers[server];
                let (config, held) = held::server(record).ok_or_else(|| wrong(record))?;
                let line = server_line(config, &held, cluster.crashed[server]);
                Ok(Answer::Words(line))
            }
            &Command::RecordDesk { desk } => {
                let record = &*self.desk(desk)?;
                let (config, held) = held::desk(record).ok_or_else(|| wrong(record))?;
                Ok(Answer::Words(desk_line(config, &held)))
            }
            _ => {
                let config = self.cluster.as_ref().map(|cluster| cluster.config);
                Ok(of_message(config, &PROVED, command))
            }
        }
    }

    /// The cluster, or `no 1` before a house.
    fn cluster(&mut self) -> Step<&mut Cluster> {
        let cluster = self.cluster.as_mut();
        cluster.ok_or(Answer::Refused(No::BAD_HOUSE))
    }

    /// A server's place, crashed or not.
    fn any_server(&mut self, server: u64) -> Step<(&mut Cluster, usize)> {
        let cluster = self.cluster()?;
        if server >= cluster.servers.len() as u64 {
            return Err(No::BAD_HOUSE.into());
        }
        Ok((cluster, server as usize))
    }

    /// The record of a server that takes a step.
    fn server(&mut self, server: u64) -> Step<&mut Server> {
        let (cluster, server) = self.any_server(server)?;
        if cluster.crashed[server] {
            return Err(Answer::Crashed);
        }
        Ok(&mut cluster.servers[server])
    }

    /// The record of a desk, opened if it was not named before.
    fn desk(&mut self, number: u64) -> Step<&mut Desk> {
        let Cluster { config, desks, .. } = self.cluster()?;
        if !desks.contains_key(&number) {
            let (n, f) = (config.n() as u64, config.f() as u64);
            let opened = desks::open(n, f, number, &config.starts());
            let desk = opened_record(opened.answer, opened.desk, Desk::NONE)?;
            if desks.len() == MOST_DESKS {
                return Err(Answer::Bounds);
            }
            desks.insert(number, desk);
        }
        Ok(desks.get_mut(&number).expect("it is open"))
    }
}

impl Cluster {
    fn open(house: &House) -> Step<Cluster> {
        let (n, f, starts) = (house.n, house.f, house.starts());
        let open_server = |number| {
            let opened = servers::open(n, f, number, &starts);
            opened_record(opened.answer, opened.server, Server::NONE)
        };
        // The library says which numbers and lists are out of bounds, and of a
        // desk the same as of a server.
        let opened = desks::open(n, f, 1, &starts);
        let desk = opened_record(opened.answer, opened.desk, Desk::NONE);
        let server = open_server(0);
        if server.is_ok() != desk.is_ok() {
            return Err(wrong((server, desk)));
        }
        server?;
        Ok(Cluster {
            config: house.config().map_err(|_| wrong("it is out of bounds"))?,
            servers: (0..n).map(open_server).collect::<Step<_>>()?,
            crashed: vec![false; n as usize],
            desks: BTreeMap::new(),
        })
    }
}

/// The record that an open hands back: a fresh one, or none beside a refusal.
fn opened_record<R: PartialEq + Debug>(answer: i64, record: R, none: R) -> Step<R> {
    match done(answer) {
        Ok(_) => Ok(record),
        Err(no) if record == none => Err(no),
        Err(_) => Err(wrong(record)),
    }
}

/// A reply is heard twice, by a copy of the record and by the record itself,
/// which is lent. Both have to come to the same.
fn hear(desk: &mut Desk, message: &[u8]) -> Step<Answer> {
    let mut held = *desk;
    let heard = desks::hear(held, message);
    let answer = desks::hear_lent(desk, message);
    let lent = DeskAnswer {
        answer,
        desk: *desk,
    };
    if heard != lent {
        return Err(wrong(format!("{heard:?} by value, lent {lent:?}")));
    }
    put(&mut held, *desk, answer)?;
    match answer {
        LATE => Ok(Answer::Late),
        _ => done(answer),
    }
}

/// The result of an operation. All is 0 where there is none.
fn told(told: &ResultAnswer) -> Step<Answer> {
    let register = held::register(&told.register).ok_or_else(|| wrong(told))?;
    match (done(told.answer), told.kind) {
        (Ok(_), kind @ 1..=2) => Ok(Answer::Told(Outcome {
            write: kind == 2,
            register,
            restarts: told.restarts,
        })),
        (Err(no), 0) if told.restarts == 0 && told.register == Register::START => Err(no),
        _ => Err(wrong(told)),
    }
}

/// Puts the record that a call handed back in the place of the one that it was
/// given. Where the answer is not 0 they have to be the same.
fn put<R: PartialEq + Debug>(held: &mut R, after: R, answer: i64) -> Step<()> {
    if answer != 0 && after != *held {
        return Err(wrong(format!("{held:?} is {after:?} after {answer}")));
    }
    *held = after;
    Ok(())
}

/// `ok` for the answer 0, or the refusal.
fn done(answer: i64) -> Step<Answer> {
    match number(answer)? {
        0 => Ok(Answer::Done),
        _ => Err(wrong(answer)),
    }
}

/// An answer of 0 or more, or the refusal that it is.
fn number(answer: i64) -> Step<u64> {
    match (u64::try_from(answer), refused(answer)) {
        (Ok(number), _) => Ok(number),
        (Err(_), Some(no)) => Err(no.into()),
        (Err(_), None) => Err(wrong(answer)),
    }
}

/// A margin, which may be below 0, or the refusal that the answer is.
fn margin(answer: i64) -> Step<Answer> {
    match refused(answer) {
        None => Ok(Answer::Margin(answer)),
        Some(no) => Err(no.into()),
    }
}

/// The refusal that an answer is, if it is one.
fn refused(answer: i64) -> Option<No> {
    let number = (1..=15).find(|number| answer == refusal(*number));
    number.map(No)
}

/// The answer where the header rules out what was found.
fn wrong(what: impl Debug) -> Answer {
    Answer::Words(format!("wrong: {what:?}"))
}
