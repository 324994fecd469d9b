//! Which number comes first when a message has several faults (2 to 5, 7, 6,
//! 13), and that a refused message leaves nothing behind.

use super::one::One;
use crate::conformance::line::{exactly, register, reply, request, share, sheet, Line};
use crate::format::Message;
use crate::machine::server::Room;
use crate::runs::player::ROOMY;
use crate::write::write;

const VALUE: &[u8] = &[1, 2, 3];

/// A request to a server whose sheet is newer than the one held, with a register
/// that clashes if the value is another.
fn newer(server: u8, value: &[u8]) -> Message<'_> {
    Message {
        register: register(9, 9, value),
        ledger: sheet(&[(3, 1, &[(4, 10)])]),
        ..request(server, 6, 2)
    }
}

/// A message without its last byte.
fn torn(message: &Message) -> Vec<u8> {
    let mut bytes = write(message);
    bytes.pop();
    bytes
}

pub fn order() -> Vec<Line> {
    let mut one = One::new(5, 1, 2);
    one.serve(&Message {
        register: register(9, 9, VALUE),
        ..request(2, 6, 1)
    });
    one.record();
    // 7: a request to another server, and replies.
    one.serve(&newer(1, VALUE));
    one.serve(&reply(2, 6, 1));
    one.serve(&reply(1, 6, 1));
    // 7 before 6, and before 13.
    one.serve(&newer(3, &[0]));
    one.serve_in(&newer(3, &[0]), exactly(0));
    // 2, 3, 4 and 5 before 7.
    one.serve_bytes(torn(&newer(1, VALUE)), ROOMY);
    one.serve_bytes(torn(&reply(2, 6, 1)), exactly(0));
    one.serve_bytes(vec![0x00, 0x07, 0x01, 0x01, 0x00, 0x06], ROOMY);
    one.serve(&request(5, 6, 1));
    one.serve(&Message {
        ledger: sheet(&[(3, 1, &[(4, 375)])]),
        ..request(1, 6, 1)
    });
    // 5 before 6.
    one.serve(&Message {
        ledger: sheet(&[(3, 1, &[(4, 375)])]),
        ..newer(2, &[0])
    });
    // 6, and 6 before 13.
    one.serve(&newer(2, &[0]));
    one.serve_in(&newer(2, &[0]), exactly(0));
    one.record();
    // 13, one byte short of the reply's 30: nothing is joined. Then with room.
    one.serve_in(&newer(2, VALUE), exactly(29));
    one.record();
    one.serve_in(&newer(2, VALUE), exactly(30));
    one.record();
    one.lines
}

/// Where a reply of 24 bytes is written, and in how long a buffer.
const REPLIES: [(u64, u64); 12] = [
    (0, 0),
    (0, 23),
    (0, 24),
    (1, 24),
    (1, 25),
    (2_024, 2_048),
    (2_025, 2_048),
    (25, 24),
    (1, 0),
    (1 << 32, 100),
    (u64::MAX - 23, 2_048),
    (u64::MAX, 2_048),
];

/// The same for a share of 14 bytes.
const SHARES: [(u64, u64); 6] = [
    (0, 13),
    (0, 14),
    (86, 100),
    (87, 100),
    (15, 14),
    (u64::MAX, 14),
];

/// Buffers: what a reply and a share need, and that a share that comes needs
/// none, wherever it would be.
pub fn rooms() -> Vec<Line> {
    let mut one = One::new(4, 1, 0);
    one.transfer(3, 300);
    let noted = Message {
        note: Some(0x0102_0304),
        ..request(0, 258, 16_909_060)
    };
    for (at, len) in REPLIES {
        one.serve_in(&noted, Room { at, len });
    }
    for (at, len) in SHARES {
        one.share(Room { at, len });
    }
    for (at, len) in [(0, 0), (9, 8), (u64::MAX, 0)] {
        one.serve_in(&share(1), Room { at, len });
    }
    let news = Message {
        ledger: sheet(&[(1, 1, &[(0, 9)])]),
        ..share(1)
    };
    one.serve_in(&news, Room { at: 9, len: 8 });
    one.record();
    one.lines
}
