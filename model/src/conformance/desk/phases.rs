//! Where a phase ends: at more than half of the weight, not of the servers. And
//! how much is missing until then.

use super::one::One;
use crate::conformance::line::{register, sheet, Line, Row};
use crate::format::Message;
use crate::weights::Ledger;

/// The desk hears a reply of a server with this sheet.
fn hear(one: &mut One, server: u8, round: u32, ledger: &Ledger) {
    let message = Message {
        ledger: ledger.clone(),
        ..one.reply(server, round)
    };
    one.hear(&message);
}

/// Five servers of which 3 and 4 weigh 3,122 of 5,000: two heavy ones are
/// enough, three light ones are not.
pub fn heads() -> Vec<Line> {
    let rows: &[Row] = &[
        (0, 1, &[(3, 374)]),
        (1, 1, &[(3, 374)]),
        (2, 1, &[(4, 374)]),
    ];
    let ledger = &sheet(rows);
    let mut one = One::new(5, 1, 7);
    one.write(&[0x77], 0);
    hear(&mut one, 3, 1, ledger);
    one.margin();
    for server in [0, 1, 2] {
        hear(&mut one, server, 2, ledger);
        one.margin();
        one.record();
    }
    hear(&mut one, 4, 2, ledger);
    one.margin();
    one.record();
    hear(&mut one, 4, 3, ledger);
    one.margin();
    one.record();
    hear(&mut one, 3, 3, ledger);
    one.margin();
    one.result();
    one.record();
    one.lines
}

/// Level servers, in every number of them: a write through the last ones, and
/// one more than half of them are needed, in each phase.
pub fn levels() -> Vec<Line> {
    let mut lines = Vec::new();
    for n in 1..=16 {
        let mut one = One::new(n, (n - 1) / 2, 7);
        one.write(&[n as u8], 0);
        for round in [1, 2] {
            let enough = n / 2 + 1;
            for server in n - enough..n {
                one.result();
                one.margin();
                one.hear(&one.reply(server as u8, round));
            }
            one.record();
        }
        one.result();
        one.margin();
        lines.extend(one.lines);
    }
    lines
}

/// Exactly half is not enough, 1 more is: with level servers, and after a gift
/// of 1.
pub fn halves() -> Vec<Line> {
    let mut lines = Vec::new();
    for (n, f) in [(2, 0), (4, 1), (16, 7)] {
        let mut one = One::new(n, f, 7);
        one.read(0);
        let last = n as u8 / 2;
        for server in 0..=last {
            one.hear(&one.reply(server, 1));
            if server + 1 >= last {
                one.margin();
                one.record();
            }
        }
        lines.extend(one.lines);
        // Server 0 gives 1 to the one after it.
        let ledger = &sheet(&[(0, 1, &[(1, 1)])]);
        let mut one = One::new(n, f, 7);
        one.read(0);
        hear(&mut one, 0, 1, ledger);
        let without = (0..n as u8)
            .filter(|server| *server != 1)
            .take(n as usize / 2);
        without.for_each(|server| hear(&mut one, server, 2, ledger));
        one.margin();
        one.record();
        one.abandon();
        one.read(0);
        let with = (1..n as u8).take(n as usize / 2);
        with.for_each(|server| hear(&mut one, server, 3, ledger));
        one.margin();
        one.record();
        lines.extend(one.lines);
    }
    lines
}

/// A register above the chosen one, in phase 2: it is held, and the result is
/// the chosen one.
pub fn higher() -> Vec<Line> {
    let mut one = One::new(3, 1, 7);
    let brings = |one: &One, server, round, stamp, desk, value| Message {
        register: register(stamp, desk, value),
        ..one.reply(server, round)
    };
    one.write(&[0x01], 4);
    // The highest of a quorum, stamp before desk, is what a write goes beyond.
    one.hear(&brings(&one, 0, 1, 5, 9, &[0x59]));
    one.hear(&brings(&one, 1, 1, 6, 2, &[0x62]));
    one.record();
    one.ask(2);
    one.hear(&brings(&one, 0, 2, 7, 8, &[0x78]));
    one.record();
    one.ask(2);
    one.hear(&one.reply(2, 2));
    one.result();
    one.record();
    // A read holds on to what it chose, too.
    one.read(0);
    one.ask(0);
    one.hear(&brings(&one, 0, 3, 7, 6, &[0x76]));
    one.hear(&one.reply(2, 3));
    one.hear(&brings(&one, 0, 4, 9, 1, &[0x91]));
    one.hear(&brings(&one, 1, 4, 8, 65_535, &[]));
    one.result();
    one.record();
    one.lines
}
