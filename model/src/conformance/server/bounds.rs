//! The numbers 1 and 15: lines before a house, houses out of bounds and with
//! lists that are not lawful, and servers that there are not.

use super::one::One;
use crate::conformance::line::{bad_lists, register, request, share, Line, BAD_HOUSES};
use crate::format::Message;
use crate::machine::command::{Command, House};
use crate::runs::player::ROOMY;
use crate::write::write;

/// Each call of a server of this number.
fn calls(server: u64, message: &Message) -> [Line; 4] {
    [
        Command::Serve {
            server,
            room: ROOMY,
            message: write(message),
        },
        Command::Transfer {
            giver: server,
            taker: 1,
            amount: 1,
        },
        Command::Share {
            server,
            room: ROOMY,
        },
        Command::RecordServer { server },
    ]
}

/// All is refused until a house is opened.
pub fn before_a_house() -> Vec<Line> {
    let mut lines = Vec::new();
    for server in [0, 4, u64::MAX] {
        lines.extend(calls(server, &share(0)));
    }
    lines.push(Command::level(5, 3));
    lines.push(Command::House {
        house: House::with_starts(2, 0, vec![300, 100]),
    });
    lines.extend(calls(0, &request(0, 1, 1)));
    lines
}

/// A house that is refused leaves the one before as it was.
pub fn houses() -> Vec<Line> {
    let mut one = One::new(5, 1, 3);
    one.transfer(4, 17);
    one.serve(&Message {
        register: register(2, 3, &[0xA5]),
        ..share(0)
    });
    one.record();
    for (n, f) in BAD_HOUSES {
        one.lines.push(Command::level(n, f));
    }
    for house in bad_lists() {
        one.lines.push(Command::House { house });
    }
    // 1 comes before 15.
    for (n, f) in [(0, 0), (17, 3), (5, 3)] {
        let house = House::with_starts(n, f, vec![300, 100]);
        one.lines.push(Command::House { house });
    }
    one.record();
    one.transfer(0, 1);
    // One that is accepted forgets it.
    one.lines.push(Command::level(5, 1));
    one.record();
    one.lines
}

/// Servers of n or more, also such as are below n when they are cut.
pub fn nobody() -> Vec<Line> {
    let mut lines = Vec::new();
    for (n, f) in [(1, 0), (5, 1), (16, 7)] {
        let mut one = One::new(n, f, n - 1);
        one.record();
        let far = [1 << 8, 1 << 16, 1 << 32, 1 << 63].map(|far| far + n - 1);
        for server in [n, n + 1].into_iter().chain(far).chain([u64::MAX]) {
            one.lines.extend(calls(server, &share(0)));
        }
        // 1 comes before the numbers of a message and of a transfer.
        one.lines.push(Command::Serve {
            server: n,
            room: ROOMY,
            message: vec![0],
        });
        one.lines.push(Command::Transfer {
            giver: n,
            taker: n,
            amount: 0,
        });
        one.record();
        lines.extend(one.lines);
    }
    lines
}
