//! What refusals leave as it was: a register above the one held does not come in
//! with a reply that is refused, and a result stays after a begin that is.

use super::one::One;
use crate::conformance::line::{register, sheet, Line, Row};
use crate::format::Message;
use crate::machine::server::Room;

const FOUND: &[u8] = &[0x11];
const NEW: &[u8] = &[0xAA];
const HELD: &[Row] = &[(0, 1, &[(2, 100)])];

/// A reply with these rows and this register.
fn brings<'a>(
    one: &One,
    (server, round): (u8, u32),
    rows: &[Row],
    (stamp, desk, value): (u32, u16, &'a [u8]),
) -> Message<'a> {
    Message {
        register: register(stamp, desk, value),
        ..Message {
            ledger: sheet(rows),
            ..one.reply(server, round)
        }
    }
}

pub fn kept() -> Vec<Line> {
    let mut one = One::new(5, 1, 7);
    one.write(NEW, 0);
    one.hear(&brings(&one, (0, 1), HELD, (1, 3, FOUND)));
    refused_replies(&mut one, 2, (9, 9, &[0x99]));
    for server in [1, 2, 3] {
        one.hear(&brings(&one, (server, 2), HELD, (1, 3, FOUND)));
        one.margin();
    }
    one.record();
    refused_replies(&mut one, 3, (9, 9, &[0x99]));
    for server in [1, 2, 3] {
        one.hear(&brings(&one, (server, 3), HELD, (2, 7, NEW)));
    }
    refused_begins(&mut one);
    same_value(&mut one);
    one.lines
}

/// A row that clashes, one that is behind and one that is not there, each with a
/// higher register, one that is ahead besides, and one that is light besides;
/// then a server that is none, by a buffer that has no room.
fn refused_replies(one: &mut One, round: u32, higher: (u32, u16, &[u8])) {
    let clashing: &[&[Row]] = &[
        &[(0, 1, &[(3, 100)])],
        &[(0, 2, &[(2, 99), (3, 1)])],
        &[],
        &[(1, 1, &[(0, 1)])],
        &[(0, 1, &[(2, 101)]), (1, 1, &[(0, 1)])],
        &[(0, 1, &[(2, 375)])],
    ];
    for rows in clashing {
        one.hear(&brings(one, (1, round), rows, higher));
        one.record();
    }
    one.margin();
    one.ask_in(
        5,
        Room {
            at: 1_112,
            len: 1_111,
        },
    );
    one.ask_in(u64::MAX, Room { at: 0, len: 9 });
}

fn refused_begins(one: &mut One) {
    one.result();
    one.write(&[0; 65], 1);
    one.result();
    one.margin();
    one.record();
}

/// A write of the value that it finds is a write all the same, with a new tag.
fn same_value(one: &mut One) {
    one.write(NEW, 0);
    for round in [4, 5] {
        for server in [1, 2, 3] {
            one.hear(&brings(one, (server, round), HELD, (2, 7, NEW)));
        }
        one.record();
    }
    one.result();
}

/// Rounds and restarts beyond 8 bits: a read hears of one transfer more in each
/// of 300 rounds.
pub fn many() -> Vec<Line> {
    let mut one = One::new(2, 0, 7);
    one.read(0);
    for round in 1..=300 {
        one.hear(&Message {
            ledger: sheet(&[(0, round as u16, &[(1, 300)])]),
            ..one.reply(0, round)
        });
    }
    one.margin();
    one.record();
    for round in [301, 302] {
        one.hear(&Message {
            ledger: sheet(&[(0, 300, &[(1, 300)])]),
            ..one.reply(1, round)
        });
    }
    one.result();
    one.read(0);
    one.ask(1);
    one.record();
    one.lines
}
