//! What becomes of the messages of a run: given to somebody once or more, at
//! once or long after they were sent, in their order or not, or lost.

use super::script::Turn;
use crate::machine::command::Command;

/// So many lines later a message is delayed.
const DELAY: usize = 100;

/// A message that was sent: on which line, and how often it was given to
/// somebody since.
struct Sent {
    line: usize,
    given: u64,
}

/// The messages of a cluster, by their places.
#[derive(Default)]
pub struct Fates {
    sent: Vec<Sent>,
    /// The latest message that was given to somebody.
    latest: usize,
}

impl Fates {
    /// A step of the store: what became of a message by it, in words.
    pub fn see(&mut self, turn: &Turn) -> Vec<&'static str> {
        let mut words = Vec::new();
        if let Command::Serve { message, .. } | Command::Hear { message, .. } = &turn.command {
            if let Some(place) = message.place {
                let sent = &mut self.sent[place];
                sent.given += 1;
                let cases = [
                    (sent.given > 1, "message: given again"),
                    (
                        turn.number > sent.line + DELAY,
                        "message: given more than 100 lines later",
                    ),
                    (place < self.latest, "message: given after a later one"),
                ];
                words.extend(cases.iter().filter(|case| case.0).map(|case| case.1));
                self.latest = self.latest.max(place);
            }
        }
        if turn.sent().is_some() {
            let line = turn.number;
            self.sent.push(Sent { line, given: 0 });
        }
        words
    }

    /// The cluster is gone, and with it what was not given to anybody.
    pub fn close(&mut self) -> Vec<&'static str> {
        let sent = std::mem::take(self).sent;
        let lost = sent.iter().filter(|sent| sent.given == 0);
        lost.map(|_| "message: lost").collect()
    }
}
