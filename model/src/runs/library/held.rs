//! What a record of the library holds, as the model has it, to be shown in the
//! model's words. `None` for a record that no server or desk of the model is
//! like: nothing that a record holds is left out.

use std::rc::Rc;

use crate::machine::desk::{Activity, Desk, Operation, Outcome, Phase, Task};
use crate::machine::register::{Pair, Register, Tag};
use crate::machine::server::Server;
use crate::proved::records;
use crate::weights::{Config, Ledger};

pub fn server(record: &records::Server) -> Option<(Config, Server<Ledger>)> {
    let config = config(&record.config)?;
    let server = Server {
        number: record.number.try_into().ok()?,
        pair: pair(config, &record.replica)?,
    };
    Some((config, server))
}

pub fn desk(record: &records::Desk) -> Option<(Config, Desk<Ledger>)> {
    let config = config(&record.config)?;
    let desk = Desk {
        number: record.number.try_into().ok()?,
        pair: pair(config, &record.replica)?,
        round: record.round,
        activity: activity(&record.operation)?,
    };
    Some((config, desk))
}

pub fn register(record: &records::Register) -> Option<Register> {
    Some(Register {
        tag: Tag {
            stamp: record.stamp,
            desk: record.desk,
        },
        value: value(&record.value)?,
    })
}

/// The start weights from n on are 0.
fn config(record: &records::Config) -> Option<Config> {
    let n = record.n.try_into().ok()?;
    let (starts, after) = record.starts.split_at_checked(n)?;
    let starts: Vec<u64> = starts.iter().map(|&start| start.into()).collect();
    let alone = after.iter().all(|start| *start == 0);
    Config::new(record.n, record.f, &starts)
        .ok()
        .filter(|_| alone)
}

/// The line of a record has no count of a server of n or more.
fn pair(config: Config, record: &records::Replica) -> Option<Pair<Ledger>> {
    let records::Ledger { counts, cells } = record.ledger;
    if counts[config.n()..].iter().any(|count| *count != 0) {
        return None;
    }
    Some(Pair {
        sheet: Ledger { counts, cells },
        register: register(&record.register)?,
    })
}

/// The bytes after those of a value are 0.
fn value(record: &records::Value) -> Option<Rc<[u8]>> {
    let (value, after) = record.bytes.split_at_checked(record.length.into())?;
    after.iter().all(|byte| *byte == 0).then(|| value.into())
}

/// A field that has no meaning in a state of the desk is 0 in it.
fn activity(record: &records::Operation) -> Option<Activity> {
    let (writing, chosen) = (value(&record.value)?, register(&record.chosen)?);
    match record.mode {
        0 if *record == records::Operation::NONE => Some(Activity::None),
        1 => Some(Activity::Running(Operation {
            task: match record.kind {
                1 if writing.is_empty() => Task::Read,
                2 => Task::Write(writing),
                _ => return None,
            },
            note: record.note,
            phase: match record.phase {
                1 if chosen == Register::start() => Phase::First,
                2 => Phase::Second(chosen),
                _ => return None,
            },
            answered: record.answered,
            restarts: record.restarts,
        })),
        2 => {
            let alone = records::Operation {
                mode: 2,
                restarts: record.restarts,
                kind: record.kind,
                chosen: record.chosen,
                ..records::Operation::NONE
            };
            let ended = *record == alone && (1..=2).contains(&record.kind);
            ended.then(|| {
                Activity::Ended(Outcome {
                    write: record.kind == 2,
                    register: chosen,
                    restarts: record.restarts,
                })
            })
        }
        _ => None,
    }
}
