//! A record stays as it was while nothing accepted could have changed it: a
//! refused or late step changes nothing (paper 01, "The runs of demand 3"), nor
//! do ask, share, result and margin. Checked on a store's own lines that show a
//! record.

use std::collections::BTreeMap;

use super::observer::{Clause, Found};
use super::script::Turn;
use super::seen::shown;
use crate::machine::command::Command;

/// Whose record.
#[derive(Clone, Copy, Debug, PartialEq, Eq, PartialOrd, Ord)]
enum Whose {
    Server(u64),
    Desk(u64),
}

/// The first line that shows a record which changed by itself.
pub fn changed(turns: &[Turn]) -> Option<Found> {
    let mut records: BTreeMap<Whose, &str> = BTreeMap::new();
    for turn in turns {
        let answer = turn.answer();
        match (&turn.command, whose(turn)) {
            (Command::House { .. }, _) if answer == "ok" => records.clear(),
            (Command::RecordServer { .. } | Command::RecordDesk { .. }, Some(whose))
                if shown(answer).is_some() =>
            {
                let before = records.insert(whose, answer);
                if let Some(before) = before.filter(|before| *before != answer) {
                    return Some(Found {
                        clause: Clause::Equality,
                        number: turn.number,
                        words: format!("nothing was accepted since it was\n{before}"),
                    });
                }
            }
            (command, Some(whose)) if may_change(command) && answer.starts_with("ok") => {
                records.remove(&whose);
            }
            _ => {}
        }
    }
    None
}

fn whose(turn: &Turn) -> Option<Whose> {
    let server = turn.command.server().map(Whose::Server);
    server.or(turn.command.desk().map(Whose::Desk))
}

/// Whether an accepted step may change the record of its party.
fn may_change<M>(command: &Command<M>) -> bool {
    matches!(
        command,
        Command::Begin { .. }
            | Command::Serve { .. }
            | Command::Hear { .. }
            | Command::Drop { .. }
            | Command::Transfer { .. }
            | Command::Crash { .. }
    )
}
