//! Replies by their sheets: more than the desk's is a restart, less or another
//! is 6.

use super::one::One;
use crate::conformance::line::{register, sheet, Line, Row};
use crate::format::Message;

/// The desk hears a reply of a server with these rows.
fn hear(one: &mut One, server: u8, round: u32, rows: &[Row]) {
    let message = Message {
        ledger: sheet(rows),
        ..one.reply(server, round)
    };
    one.hear(&message);
}

/// A restart in phase 1 and two in phase 2.
pub fn restarts() -> Vec<Line> {
    let once: &[Row] = &[(0, 1, &[(1, 50)])];
    let twice: &[Row] = &[(0, 2, &[(1, 50), (2, 1)])];
    let also: &[Row] = &[(0, 2, &[(1, 50), (2, 1)]), (2, 1, &[(1, 5)])];
    let mut one = One::new(3, 1, 7);
    one.write(&[0xB7], 0);
    hear(&mut one, 1, 1, &[]);
    one.margin();
    hear(&mut one, 0, 1, once);
    // Nobody has answered in the new round, and what is of the old one is late.
    one.margin();
    one.record();
    hear(&mut one, 2, 1, once);
    one.margin();
    one.ask(2);
    hear(&mut one, 0, 2, once);
    one.margin();
    hear(&mut one, 1, 2, once);
    one.record();
    // Phase 2: it stays in it, with what it chose.
    hear(&mut one, 2, 3, once);
    one.margin();
    hear(&mut one, 0, 3, twice);
    one.margin();
    one.record();
    hear(&mut one, 1, 3, twice);
    hear(&mut one, 2, 4, also);
    one.margin();
    one.record();
    one.ask(0);
    hear(&mut one, 2, 5, also);
    one.margin();
    hear(&mut one, 1, 5, also);
    one.result();
    one.record();
    // The next operation begins with the sheet that it has, and no restarts.
    one.read(3);
    one.ask(1);
    hear(&mut one, 2, 6, also);
    one.margin();
    hear(&mut one, 1, 6, also);
    hear(&mut one, 2, 7, also);
    hear(&mut one, 1, 7, also);
    one.result();
    one.lines.extend(restart_with_register());
    one.lines
}

/// A restart takes the register too, and a read in phase 2 keeps what it chose.
fn restart_with_register() -> Vec<Line> {
    let mut one = One::new(2, 0, 9);
    let new = |one: &One, server, round, stamp, count| Message {
        register: register(stamp, 3, &[0xC3]),
        ledger: sheet(&[(0, count, &[(1, 499)])]),
        ..one.reply(server, round)
    };
    one.read(0);
    one.hear(&new(&one, 1, 1, 4, 1));
    one.margin();
    one.record();
    one.hear(&new(&one, 1, 2, 4, 1));
    one.record();
    one.hear(&new(&one, 1, 3, 5, 2));
    one.record();
    one.hear(&new(&one, 1, 4, 5, 2));
    one.result();
    one.record();
    one.lines
}

/// Late before 6, and every cause of 6; nothing changes by any.
pub fn clashes() -> Vec<Line> {
    let held: &[Row] = &[(0, 2, &[(1, 50)]), (3, 1, &[(4, 9)])];
    let mut one = One::new(5, 1, 7);
    one.read(0);
    hear(&mut one, 0, 1, held);
    one.record();
    hear(&mut one, 1, 1, &[]);
    hear(&mut one, 1, 3, &[]);
    // A transfer of the desk's is lacking: all, a row, one of a row.
    hear(&mut one, 1, 2, &[]);
    hear(&mut one, 1, 2, &held[..1]);
    hear(&mut one, 1, 2, &[(0, 1, &[(1, 50)]), held[1]]);
    hear(&mut one, 1, 2, &[(0, 1, &[(1, 20)]), held[1]]);
    // Lacking, and with more.
    hear(&mut one, 1, 2, &[held[0], (1, 1, &[(0, 1)])]);
    hear(&mut one, 1, 2, &[(0, 3, &[(1, 50)])]);
    // Of the same count: a larger cell, a smaller, another.
    hear(&mut one, 1, 2, &[(0, 2, &[(1, 51)]), held[1]]);
    hear(&mut one, 1, 2, &[(0, 2, &[(1, 49)]), held[1]]);
    hear(&mut one, 1, 2, &[held[0], (3, 1, &[(2, 9)])]);
    // Later: a smaller cell, one that is gone.
    hear(&mut one, 1, 2, &[(0, 3, &[(1, 49), (2, 9)]), held[1]]);
    hear(&mut one, 1, 2, &[held[0], (3, 2, &[(0, 20)])]);
    one.margin();
    one.record();
    hear(&mut one, 1, 2, held);
    one.margin();
    hear(&mut one, 2, 2, held);
    one.margin();
    one.record();
    one.lines.extend(values());
    one.lines
}

/// Equal tags with other values.
fn values() -> Vec<Line> {
    let mut one = One::new(5, 1, 7);
    let brings = |one: &One, server, value| Message {
        register: register(3, 4, value),
        ..one.reply(server, 1)
    };
    one.read(0);
    one.hear(&brings(&one, 0, &[0xA0]));
    one.margin();
    one.record();
    one.hear(&brings(&one, 1, &[0xA0, 0x00]));
    one.margin();
    one.hear(&brings(&one, 1, &[]));
    one.hear(&brings(&one, 1, &[0xA1]));
    // With a newer sheet too: the restart is not made.
    one.hear(&Message {
        ledger: sheet(&[(1, 1, &[(0, 1)])]),
        ..brings(&one, 1, &[0xA1])
    });
    one.margin();
    one.record();
    one.hear(&brings(&one, 1, &[0xA0]));
    one.margin();
    one.record();
    one.lines
}
