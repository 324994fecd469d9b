//! The ends of what fits: a count of 65,535, a total of 1,048,560,000, a message
//! of 1,111 bytes, and sums that leave 32 bits.

use super::one::One;
use crate::conformance::line::{exactly, full_sheet, register, request, share, sheet, Line};
use crate::conformance::sums::{self, MOST_IN_ROW};
use crate::format::Message;
use crate::machine::server::Room;
use crate::weights::Ledger;

fn told(ledger: Ledger) -> Message<'static> {
    Message { ledger, ..share(3) }
}

/// Servers 3 and 4 gave each other the same, so that no weight moves.
fn ring(count: u16, amount: u32) -> Ledger {
    sheet(&[(3, count, &[(4, amount)]), (4, count, &[(3, amount)])])
}

/// Another giver's count at its end, with the least total that it can have.
pub fn counts() -> Vec<Line> {
    let mut one = One::new(5, 1, 0);
    one.serve(&told(ring(65_534, 65_534)));
    one.serve(&told(ring(65_535, 65_535)));
    one.record();
    // Behind by one: cells that are no larger, and a larger one.
    one.serve(&told(ring(65_534, 65_534)));
    one.serve(&told(ring(65_534, 65_535)));
    one.serve(&told(ring(65_534, 65_536)));
    // Of the same count with another cell; a total below the count.
    one.serve(&told(ring(65_535, 65_536)));
    one.serve(&told(ring(65_535, 65_534)));
    // Counts that are larger by their high byte, or by their low byte, alone.
    one.serve(&told(ring(255, 255)));
    one.serve(&told(ring(32_768, 32_768)));
    one.serve(&Message {
        note: Some(1),
        ..request(0, 1, 1)
    });
    one.record();
    one.lines
}

/// The largest total of a row.
pub fn totals() -> Vec<Line> {
    let mut one = One::new(5, 1, 0);
    one.serve(&told(ring(65_535, MOST_IN_ROW + 1)));
    one.serve(&told(ring(1, 16_001)));
    one.serve(&told(ring(1, 16_000)));
    one.serve(&told(ring(65_534, 16_000 * 65_534)));
    one.record();
    one.serve(&told(ring(65_535, MOST_IN_ROW)));
    one.serve(&told(ring(65_535, MOST_IN_ROW - 1)));
    one.serve(&told(ring(65_534, 16_000 * 65_534)));
    one.record();
    one.serve(&request(0, 1, 1));
    one.transfer(3, 374);
    one.transfer(4, 1);
    one.record();
    one.lines
}

/// The longest messages: 1,111 bytes for a request and its reply, and 1,101 for
/// a share.
pub fn lengths() -> Vec<Line> {
    let own = 5;
    let mut one = One::new(16, 7, own as u64);
    let others = (0..16).filter(|taker| *taker != own as u64);
    others.for_each(|taker| one.transfer(taker, 1));
    let value: Vec<u8> = (0..64).map(|byte| 4 * byte + 3).collect();
    let longest = Message {
        register: register(u32::MAX, u16::MAX, &value),
        ledger: full_sheet(16, own),
        note: Some(u32::MAX),
        ..request(own as u8, u16::MAX, u32::MAX)
    };
    one.record();
    // Too short a buffer, and its own row ahead by one: nothing is taken.
    one.serve_in(&longest, exactly(1_110));
    let mut ahead = longest.clone();
    ahead.ledger.counts[own] += 1;
    ahead.ledger.cells[own][0] += 1;
    one.serve(&ahead);
    one.record();
    one.serve_in(&longest, exactly(1_111));
    one.record();
    lengths_of_replies(&mut one, own as u8);
    one.lines
}

/// A short request gets as long a reply, and a share is as long but for ten.
fn lengths_of_replies(one: &mut One, own: u8) {
    let short = Message {
        note: Some(9),
        ..request(own, 1, 1)
    };
    let rooms = [
        (0, 1_110),
        (938, 2_048),
        (937, 2_048),
        (1_112, 1_111),
        (u64::MAX, 2_048),
        (0, 0),
    ];
    for (at, len) in rooms {
        one.serve_in(&short, Room { at, len });
    }
    for (at, len) in [(0, 1_100), (0, 1_101), (948, 2_048)] {
        one.share(Room { at, len });
    }
}

/// Sums that leave 32 bits are refused, in requests and shares.
pub fn sums() -> Vec<Line> {
    let mut lines = Vec::new();
    for sums::Refused { n, f, ledger } in sums::totals().into_iter().chain(sums::weights()) {
        let mut one = One::new(n, f, 0);
        one.serve(&Message {
            ledger: ledger.clone(),
            ..share(1)
        });
        one.serve(&Message {
            ledger,
            ..request(0, 1, 1)
        });
        one.record();
        lines.extend(one.lines);
    }
    lines
}
