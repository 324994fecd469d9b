//! The line that shows a record: docs/SCRIPTS.md, "Records".

use super::command::hex;
use super::desk::{Activity, Desk, Operation, Outcome, Phase, Task};
use super::register::{Pair, Register};
use super::server::Server;
use super::sheet::Sheet;
use crate::weights::{bits, Config};

/// A server's line, with the mark of its crash.
pub fn server_line<S: Sheet>(config: Config, server: &Server<S>, crashed: bool) -> String {
    let end = if crashed { " crashed" } else { "" };
    let pair = pair_words(config, &server.pair);
    format!("server {} {pair}{end}", server.number)
}

/// A desk's line.
pub fn desk_line<S: Sheet>(config: Config, desk: &Desk<S>) -> String {
    let pair = pair_words(config, &desk.pair);
    let activity = activity_words(&desk.activity);
    format!(
        "desk {} {pair} round {} operation {activity}",
        desk.number, desk.round
    )
}

/// The cluster and what is held.
fn pair_words<S: Sheet>(config: Config, pair: &Pair<S>) -> String {
    let n = config.n();
    let ledger = pair.sheet.ledger();
    let mut cells = Vec::new();
    for (giver, row) in ledger.cells.iter().enumerate() {
        for (taker, amount) in row.iter().enumerate().filter(|(_, amount)| **amount != 0) {
            cells.push(format!("{giver}>{taker}:{amount}"));
        }
    }
    let Register { tag, value } = &pair.register;
    format!(
        "n {n} f {} starts {} tag {} {} value {} weights {} counts {} cells {}",
        config.f(),
        listed(&config.starts(), ","),
        tag.stamp,
        tag.desk,
        hex(value),
        listed(&pair.sheet.weights(config)[..n], " "),
        listed(&ledger.counts[..n], " "),
        listed(&cells, " "),
    )
}

/// What is 0 or empty in a state of the desk is shown so.
fn activity_words(activity: &Activity) -> String {
    match activity {
        Activity::None => {
            "none none phase 0 note 0 restarts 0 answered - writing - chosen 0 0 -".to_string()
        }
        Activity::Running(Operation {
            task,
            note,
            phase,
            answered,
            restarts,
        }) => {
            let answered: Vec<usize> = bits(*answered).collect();
            let (kind, writing) = match task {
                Task::Read => ("read", hex(&[])),
                Task::Write(value) => ("write", hex(value)),
            };
            let (phase, chosen) = match phase {
                Phase::First => (1, Register::start()),
                Phase::Second(chosen) => (2, chosen.clone()),
            };
            format!(
                "running {kind} phase {phase} note {note} restarts {restarts} answered {} writing {writing} chosen {}",
                listed(&answered, ","),
                register_words(&chosen),
            )
        }
        Activity::Ended(Outcome {
            write,
            register,
            restarts,
        }) => format!(
            "ended {} phase 0 note 0 restarts {restarts} answered - writing - chosen {}",
            if *write { "write" } else { "read" },
            register_words(register),
        ),
    }
}

fn register_words(register: &Register) -> String {
    let Register { tag, value } = register;
    format!("{} {} {}", tag.stamp, tag.desk, hex(value))
}

/// A list, `-` for none.
pub fn listed(list: &[impl ToString], between: &str) -> String {
    if list.is_empty() {
        return "-".to_string();
    }
    let words: Vec<String> = list.iter().map(ToString::to_string).collect();
    words.join(between)
}
