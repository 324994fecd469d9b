//! The examples of paper 01, "Checked by the prover", on the model and on the
//! proved library. Cases 1 to 6 are about a transfer; here they are the share
//! that carries it: where the transfer passes the share is read, and where it
//! would be thin the share is light. Cases 7 to 9 are margins (paper 02, N1). All
//! servers start level (N2).

use model::answers::refusal;
use model::format::{Kind, Message, Register};
use model::runs::pace::pairs;
use model::seats::{ALL_FREE, SOLD_OUT, TOO_LONG, TWO_SOLD};
use model::weights::{level, Ledger};
use model::write::write;
use model::{answers, proved};

const HOUSE: u8 = 1;
const TORN: u8 = 2;
const ODD_FIELD: u8 = 4;
const LIGHT: u8 = 5;
const LONG: u8 = 14;

fn check(n: u64, f: u64, msg: &[u8]) -> i64 {
    let starts = &level(n);
    both(
        answers::check(n, f, starts, msg),
        proved::check(n, f, starts, msg),
    )
}

fn weight(n: u64, f: u64, server: u64, msg: &[u8]) -> i64 {
    let starts = &level(n);
    both(
        answers::weight(n, f, starts, server, msg),
        proved::weight(n, f, starts, server, msg),
    )
}

fn quorum(n: u64, f: u64, map: u64, msg: &[u8]) -> i64 {
    let starts = &level(n);
    both(
        answers::quorum(n, f, starts, map, msg),
        proved::quorum(n, f, starts, map, msg),
    )
}

fn seats(block: &[u8]) -> i64 {
    both(answers::seats(block), proved::seats(block))
}

fn both(model: i64, proved: i64) -> i64 {
    assert_eq!(
        model, proved,
        "the model on the left, the library on the right"
    );
    model
}

/// A share from server 0 after these transfers: giver, taker, amount.
fn share(transfers: &[(usize, usize, u32)]) -> Vec<u8> {
    let mut ledger = Ledger::FRESH;
    for &(giver, taker, amount) in transfers {
        ledger.counts[giver] += 1;
        ledger.cells[giver][taker] += amount;
    }
    write(&Message {
        kind: Kind::Share,
        server: 0,
        desk: None,
        round: None,
        register: None,
        ledger,
        note: None,
    })
}

#[test]
fn the_share_in_hex() {
    let bytes = [
        0x00, 0x23, 0x03, 0x00, 0x00, 0x01, 0x00, 0x01, 0x00, 0x04, 0x00, 0x00, 0x00, 0xC8,
    ];
    assert_eq!(share(&[(0, 2, 200)]), bytes);
    assert_eq!(check(5, 1, &bytes), 0);
    for (server, expected) in [800, 1_000, 1_200, 1_000, 1_000].into_iter().enumerate() {
        assert_eq!(weight(5, 1, server as u64, &bytes), expected);
    }
    assert_eq!(weight(5, 1, 5, &bytes), refusal(HOUSE));
    assert_eq!(quorum(5, 1, 0b10_0000, &bytes), refusal(HOUSE));
}

#[test]
fn cases_1_to_6_as_shares() {
    for (n, f, gift) in [(5, 1, 374), (4, 1, 333), (16, 7, 111)] {
        let rest = 1_000 - i64::from(gift);
        assert_eq!(check(n, f, &share(&[(0, 1, gift)])), 0);
        assert_eq!(weight(n, f, 0, &share(&[(0, 1, gift)])), rest);
        let one_more = share(&[(0, 1, gift + 1)]);
        assert_eq!(check(n, f, &one_more), refusal(LIGHT));
        assert_eq!(weight(n, f, 0, &one_more), refusal(LIGHT));
        assert_eq!(quorum(n, f, 1, &one_more), refusal(LIGHT));
    }
}

/// The maps of so many servers of n.
fn maps(n: u64, servers: u32) -> impl Iterator<Item = u64> {
    (0..1 << n).filter(move |map: &u64| map.count_ones() == servers)
}

#[test]
fn case_7_two_fresh_servers_of_four() {
    for f in [0, 1] {
        for map in maps(4, 2) {
            assert_eq!(quorum(4, f, map, &share(&[])), 0, "{map:04b}");
        }
        for map in maps(4, 3) {
            assert_eq!(quorum(4, f, map, &share(&[])), 2_000, "{map:04b}");
        }
    }
}

#[test]
fn two_fresh_servers_of_five() {
    for f in [0, 1, 2] {
        for map in maps(5, 2) {
            assert_eq!(quorum(5, f, map, &share(&[])), -1_000, "{map:05b}");
        }
    }
}

#[test]
fn cases_8_and_9_quorums_after_two_gifts() {
    let message = share(&[(0, 2, 374), (1, 2, 374)]);
    assert_eq!(check(5, 1, &message), 0);
    assert_eq!(quorum(5, 1, 0b1_0100, &message), 496);
    assert_eq!(quorum(5, 1, 0b0_0101, &message), -252);
}

/// The margins of nobody and of everybody, which are the ends of the range.
#[test]
fn a_margin_is_from_minus_w_to_w() {
    for (n, f) in pairs() {
        let w = 1_000 * n as i64;
        assert_eq!(quorum(n, f, 0, &share(&[])), -w);
        assert_eq!(quorum(n, f, (1 << n) - 1, &share(&[])), w);
        assert_eq!(quorum(n, f, 1 << n, &share(&[])), refusal(HOUSE));
    }
}

#[test]
fn case_10_a_gift_without_what_it_came_from() {
    assert_eq!(check(5, 1, &share(&[(0, 1, 374), (1, 2, 748)])), 0);
    assert_eq!(check(5, 1, &share(&[(1, 2, 748)])), refusal(LIGHT));
}

#[test]
fn case_11_seats() {
    assert_eq!(seats(TWO_SOLD), 6);
    assert_eq!(seats(&[]), 0);
    assert_eq!(seats(ALL_FREE), 512);
    assert_eq!(seats(TOO_LONG), refusal(LONG));
}

/// A message of 1,111 bytes for n = 16, every number in it as large as it may be.
fn longest() -> Message<'static> {
    let mut ledger = Ledger::FRESH;
    for giver in 0..16 {
        ledger.counts[giver] = 15;
        for taker in (0..16).filter(|&taker| taker != giver) {
            ledger.cells[giver][taker] = 16_000;
        }
    }
    Message {
        kind: Kind::Reply,
        server: 15,
        desk: Some(65_535),
        round: Some(u32::MAX),
        register: Some(Register {
            stamp: u32::MAX,
            desk: 65_535,
            value: SOLD_OUT,
        }),
        ledger,
        note: Some(u32::MAX),
    }
}

#[test]
fn the_longest_message() {
    let bytes = write(&longest());
    assert_eq!(bytes.len(), 1_111);
    assert_eq!(check(16, 7, &bytes), 0);
    assert_eq!(weight(16, 7, 15, &bytes), 1_000);
    assert_eq!(quorum(16, 7, 0x01FF, &bytes), 2_000);
    assert_eq!(quorum(16, 7, 0x00FF, &bytes), 0);
    // Each row's total is at its upper end; with a transfer fewer it is above.
    let mut fewer = longest();
    fewer.ledger.counts[15] = 14;
    assert_eq!(check(16, 7, &write(&fewer)), refusal(ODD_FIELD));
}

/// What follows a message in memory is no part of it, and it may lie anywhere.
#[test]
fn a_message_ends_where_it_ends() {
    for (n, f, message) in [(5, 1, share(&[(0, 2, 200)])), (16, 7, write(&longest()))] {
        for start in 0..8 {
            let room = [&vec![0xFF; start], &message[..], &[0]].concat();
            for end in start..=room.len() {
                let answer = if end == start + message.len() {
                    0
                } else {
                    refusal(TORN)
                };
                assert_eq!(check(n, f, &room[start..end]), answer, "{start}..{end}");
            }
        }
    }
}
