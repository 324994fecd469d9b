//! One long run to the end of a counter: a server of two gives 65,535 times, 1
//! each, and is then refused with 12 (paper 01, "Server"). Whenever it is at the
//! floor the other one hears of it and gives all back in one transfer.

use super::player::ROOMY;
use super::script::{Entry, Source};
use crate::machine::command::Command;

/// The most that a server of n = 2, f = 0 can spare at the start.
const SPARE: u64 = 499;

/// The most transfers that a server makes.
const MOST_TRANSFERS: u64 = 65_535;

/// The run's script.
pub fn spent() -> Vec<Entry> {
    let mut script = Script::default();
    script.put(Command::level(2, 0));
    for made in 0..MOST_TRANSFERS {
        if made % SPARE == 0 && made > 0 {
            script.give(0, 1, 1); // 10: the floor is reached
            script.tell(0, 1);
            script.give(1, 0, SPARE);
            script.tell(1, 0);
            script.put(Command::RecordServer { server: 0 });
        }
        script.give(0, 1, 1);
    }
    script.give(0, 0, 1); // 11 comes before 12
    script.give(0, 1, 1); // 12
    script.give(0, 1, SPARE); // 12 comes before 10
    script.tell(0, 1);
    script.put(Command::RecordServer { server: 0 });
    script.put(Command::RecordServer { server: 1 });
    script.give(1, 0, 1); // the other one goes on
    script.entries
}

#[derive(Default)]
struct Script {
    entries: Vec<Entry>,
}

impl Script {
    fn put(&mut self, command: Command<Source>) -> usize {
        let number = self.entries.len();
        self.entries.push(Entry {
            number,
            command,
            dress: 0,
        });
        number
    }

    fn give(&mut self, giver: u64, taker: u64, amount: u64) {
        self.put(Command::Transfer {
            giver,
            taker,
            amount,
        });
    }

    /// A share that arrives.
    fn tell(&mut self, from: u64, to: u64) {
        let line = self.put(Command::Share {
            server: from,
            room: ROOMY,
        });
        self.put(Command::Serve {
            server: to,
            room: ROOMY,
            message: Source::Line(line),
        });
    }
}
