//! Replies by who sent them and when: 7 for what is not the desk's, late for
//! what is not of the round, and whole operations.

use super::one::One;
use crate::conformance::line::{register, reply, request, share, sheet, Line};
use crate::format::Message;

/// What is not a reply to this desk, or not of the round that it is in.
pub fn strays() -> Vec<Line> {
    let mut one = One::new(3, 1, 7);
    // None runs: 7 and 2 to 5 as ever, and the rest is late.
    one.hear(&one.reply(0, 1));
    one.hear(&request(0, 7, 1));
    one.hear(&reply(0, 8, 1));
    one.hear_bytes(vec![0x00, 0x0F, 0x02]);
    one.margin();
    one.record();
    one.read(0);
    // 7: a request, a share, a reply to another desk.
    one.hear(&request(0, 7, 1));
    one.hear(&share(0));
    one.hear(&reply(0, 8, 1));
    one.hear(&reply(0, 7 + 256, 1));
    one.margin();
    // 7 before late; 2, 3, 4 and 5 before 7.
    one.hear(&reply(0, 8, 2));
    one.hear_bytes(vec![0x00, 0x0F, 0x02, 0x00, 0x00, 0x08]);
    one.hear_bytes(vec![0x00, 0x07, 0x02, 0x00, 0x00, 0x08]);
    one.hear(&reply(3, 8, 1));
    one.hear(&Message {
        ledger: sheet(&[(0, 1, &[(1, 250)])]),
        ..reply(0, 8, 1)
    });
    // Late: a round to come, and one that is equal in its low bits only.
    one.hear(&one.reply(0, 2));
    one.hear(&one.reply(0, 65_537));
    one.hear(&one.reply(0, u32::MAX));
    one.margin();
    one.record();
    // The note is not looked at.
    one.hear(&Message {
        note: Some(99),
        ..one.reply(0, 1)
    });
    one.margin();
    one.record();
    one.lines
}

const VALUE: [u8; 2] = [0xA0, 0x00];

/// A reply of a server that has taken what was written.
fn taken(server: u8, round: u32) -> Message<'static> {
    Message {
        register: register(1, 7, &VALUE),
        ..reply(server, 7, round)
    }
}

/// A write and a read, with all that comes again.
pub fn operations() -> Vec<Line> {
    let mut one = One::new(3, 1, 7);
    a_write(&mut one);
    a_read(&mut one);
    // A begin forgets the result, also when it is dropped.
    one.read(5);
    one.result();
    one.abandon();
    one.result();
    one.margin();
    one.record();
    one.lines
}

fn a_write(one: &mut One) {
    one.write(&VALUE, 77);
    one.ask(0);
    // The same server twice is one of three.
    one.hear(&one.reply(0, 1));
    one.margin();
    one.hear(&one.reply(0, 1));
    one.margin();
    one.record();
    one.hear(&one.reply(2, 1));
    one.margin();
    one.record();
    // Phase 2: what is of round 1 is late, and the request has the new register.
    one.hear(&one.reply(1, 1));
    one.margin();
    one.result();
    one.ask(1);
    one.hear(&taken(1, 2));
    one.margin();
    one.hear(&taken(1, 2));
    one.margin();
    one.ask(1);
    // A reply with an older register counts too.
    one.hear(&one.reply(0, 2));
    one.margin();
    one.record();
    // The result stays, and what comes now is late.
    one.result();
    one.margin();
    one.result();
    one.hear(&taken(2, 2));
    one.margin();
    one.ask(2);
    one.abandon();
    one.margin();
    one.record();
}

fn a_read(one: &mut One) {
    one.read(0);
    one.margin();
    one.record();
    one.result();
    one.ask(2);
    one.hear(&one.reply(2, 3));
    one.hear(&taken(1, 3));
    one.record();
    one.hear(&taken(2, 4));
    one.hear(&taken(0, 4));
    one.result();
}

/// What is dropped is late afterwards, in either phase; rounds go on.
pub fn drops() -> Vec<Line> {
    let mut one = One::new(2, 0, 7);
    one.write(&[1], 0);
    one.hear(&one.reply(0, 1));
    one.margin();
    one.abandon();
    one.margin();
    one.hear(&one.reply(1, 1));
    one.margin();
    one.record();
    one.write(&[2], 0);
    // Who answered the one that was dropped is forgotten.
    one.margin();
    one.hear(&one.reply(0, 1));
    one.hear(&one.reply(0, 2));
    one.hear(&one.reply(1, 2));
    one.margin();
    one.record();
    one.abandon();
    one.margin();
    one.hear(&one.reply(0, 3));
    one.hear(&one.reply(1, 3));
    // The register that it chose stays.
    one.record();
    one.read(0);
    one.ask(0);
    one.hear(&one.reply(0, 4));
    one.hear(&one.reply(1, 4));
    one.hear(&one.reply(0, 5));
    one.hear(&one.reply(1, 5));
    one.result();
    one.record();
    one.lines
}
