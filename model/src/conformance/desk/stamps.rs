//! The last stamp: a write that would go beyond it is 12, and a read takes it.

use super::one::One;
use crate::conformance::line::{register, reply, Line};
use crate::format::Message;

fn brings(server: u8, round: u32, stamp: u32) -> Message<'static> {
    Message {
        register: register(stamp, 3, &[0xEE]),
        ..reply(server, 7, round)
    }
}

/// One server: its reply ends the phase.
pub fn alone() -> Vec<Line> {
    let mut one = One::new(1, 0, 7);
    one.write(&[0x01], 0);
    one.hear(&brings(0, 1, u32::MAX));
    one.margin();
    one.record();
    // Nothing was taken; the stamp before the last leaves room for one write.
    one.hear(&brings(0, 1, u32::MAX - 1));
    one.record();
    one.ask(0);
    one.hear(&one.reply(0, 2));
    one.result();
    one.read(0);
    one.hear(&one.reply(0, 3));
    one.hear(&one.reply(0, 4));
    one.result();
    one.write(&[], 0);
    one.hear(&one.reply(0, 5));
    one.record();
    one.lines
}

/// Three servers: the first reply with the last stamp is taken, and the one
/// that ends the phase is 12.
pub fn of_three() -> Vec<Line> {
    let mut one = One::new(3, 1, 7);
    one.write(&[0x01], 0);
    one.hear(&brings(1, 1, u32::MAX));
    one.margin();
    one.record();
    one.hear(&one.reply(0, 1));
    one.margin();
    one.hear(&brings(2, 1, u32::MAX));
    one.hear(&brings(1, 1, u32::MAX));
    one.margin();
    one.record();
    one.abandon();
    one.read(0);
    one.hear(&one.reply(0, 2));
    one.hear(&one.reply(2, 2));
    one.record();
    one.hear(&brings(0, 3, u32::MAX));
    one.hear(&brings(1, 3, u32::MAX));
    one.result();
    one.lines
}
