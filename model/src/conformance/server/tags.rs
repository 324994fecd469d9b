//! Registers: the higher tag stays, stamp before desk, and equal tags need equal
//! values.

use super::one::One;
use crate::conformance::line::{register, request, share, sheet, Line};
use crate::format::Message;

/// A request with a register.
fn brings(stamp: u32, desk: u16, value: &[u8]) -> Message<'_> {
    Message {
        register: register(stamp, desk, value),
        ..request(1, 3, 8)
    }
}

pub fn tags() -> Vec<Line> {
    let mut one = One::new(3, 1, 1);
    // The start has no register, and the reply has none.
    one.serve(&request(1, 3, 8));
    one.serve(&brings(7, 9, &[0xA0, 0xB0]));
    // Equal tags: a longer value, a shorter, none, one bit, the same.
    one.serve(&brings(7, 9, &[0xA0, 0xB0, 0x00]));
    one.serve(&brings(7, 9, &[0xA0]));
    one.serve(&brings(7, 9, &[]));
    one.serve(&brings(7, 9, &[0xA0, 0xB1]));
    one.serve(&brings(7, 9, &[0x20, 0xB0]));
    one.serve(&brings(7, 9, &[0xA0, 0xB0]));
    one.record();
    // Lower tags: none, a lower stamp with a higher desk, a lower desk.
    one.serve(&request(1, 3, 8));
    one.serve(&brings(6, 65_535, &[0x66]));
    one.serve(&brings(7, 8, &[0x78]));
    one.record();
    higher(&mut one);
    // A clash of registers: the sheet, which is newer, is not taken either.
    one.serve(&Message {
        ledger: sheet(&[(0, 1, &[(1, 9)])]),
        ..brings(u32::MAX, u16::MAX, &[0x00])
    });
    one.record();
    one.lines.extend(by_share());
    one.lines
}

/// Tags above the one held, and some just below those.
fn higher(one: &mut One) {
    // A higher desk, a higher stamp with a lower desk, and far ones.
    one.serve(&brings(7, 10, &[0x7A]));
    one.serve(&brings(8, 1, &[]));
    one.serve(&brings(7, 65_535, &[0x7F]));
    one.serve(&brings(256, 1, &[0x01; 64]));
    one.serve(&brings(255, 2, &[0x02; 64]));
    one.serve(&brings(65_536, 1, &[0x03; 3]));
    one.serve(&brings(1 << 31, 256, &[0x04; 4]));
    one.serve(&brings(1 << 31, 255, &[0x05; 5]));
    one.serve(&brings(u32::MAX, u16::MAX, &[0xFF]));
    one.serve(&brings(u32::MAX, u16::MAX - 1, &[0xFE]));
    one.serve(&brings(u32::MAX, u16::MAX, &[0xFE]));
    one.record();
}

/// A share brings a register as a request does.
fn by_share() -> Vec<Line> {
    let told = |stamp, desk, value| Message {
        register: register(stamp, desk, value),
        ..share(0)
    };
    let mut one = One::new(2, 0, 1);
    one.serve(&told(1, 1, &[]));
    one.serve(&told(1, 1, &[0]));
    one.serve(&told(1, 2, &[0]));
    one.serve(&told(1, 1, &[7]));
    one.record();
    one.lines
}
