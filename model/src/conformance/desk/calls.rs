//! Begin, ask, result and drop: the numbers 14, 8, 9, 1 and 13, and which comes
//! first.

use super::one::One;
use crate::conformance::line::{exactly, full_sheet, register, Line};
use crate::format::Message;
use crate::machine::server::Room;

const LONG: [u8; 65] = [0x5A; 65];

/// 14 before 8, and the longest and the shortest value.
pub fn begin() -> Vec<Line> {
    let mut one = One::new(5, 1, 7);
    one.record();
    one.result();
    one.margin();
    one.abandon();
    one.write(&LONG, 0);
    one.write(&[0; 256], 0);
    one.write(&[0; 320], 0);
    one.margin();
    one.record();
    one.write(&LONG[..64], u32::MAX);
    one.margin();
    one.record();
    one.write(&LONG, 0);
    one.write(&LONG[..64], 0);
    one.read(0);
    one.result();
    one.margin();
    one.record();
    one.abandon();
    one.margin();
    one.record();
    one.abandon();
    one.result();
    one.write(&[], 1);
    one.record();
    one.abandon();
    one.read(0);
    one.write(&[], 0);
    one.write(&LONG, 0);
    one.record();
    one.abandon();
    one.record();
    one.lines
}

/// 9 before 1 before 13, and buffers.
pub fn ask() -> Vec<Line> {
    let mut one = One::new(5, 1, 258);
    one.ask(0);
    one.ask(5);
    one.ask_in(0, exactly(0));
    one.read(0x0102_0304);
    for server in [5, 6, (1 << 8) + 1, (1 << 32) + 1, u64::MAX] {
        one.ask(server);
    }
    one.ask_in(5, exactly(0));
    // The request has 14 bytes.
    let rooms = [
        (0, 0),
        (0, 13),
        (0, 14),
        (1, 14),
        (1, 15),
        (2_034, 2_048),
        (2_035, 2_048),
        (15, 14),
        (1, 0),
        (1 << 32, 100),
        (u64::MAX - 13, 2_048),
        (u64::MAX, 2_048),
    ];
    for (at, len) in rooms {
        one.ask_in(4, Room { at, len });
    }
    one.record();
    // Without a note it has ten.
    one.abandon();
    one.ask(4);
    one.read(0);
    one.ask_in(4, exactly(9));
    one.ask_in(4, exactly(10));
    one.lines
}

/// A reply of 1,111 bytes, after which every request has as many.
pub fn longest() -> Vec<Line> {
    let mut one = One::new(16, 7, u16::MAX);
    let value: Vec<u8> = (0..64).map(|byte| 4 * byte + 1).collect();
    one.read(u32::MAX);
    one.hear(&Message {
        register: register(u32::MAX, 1, &value),
        ledger: full_sheet(16, 3),
        note: Some(u32::MAX),
        ..one.reply(3, 1)
    });
    one.margin();
    one.record();
    for (at, len) in [(0, 1_110), (938, 2_048), (937, 2_048)] {
        one.ask_in(15, Room { at, len });
    }
    one.lines
}
