//! Messages that end right after their first fault, or go on with anything: the
//! number is that of the fault, and what follows is not looked at (paper 01,
//! "Checks"). A reader that takes two numbers at once, or tests later than it
//! reads, gives another.

use super::line::Line;
use super::messages::{line, refused_one};
use crate::format::read;
use crate::machine::command::{Command, House};
use crate::machine::parse::parse;
use crate::place::Place;
use crate::random::Random;

/// How many messages there are for each place, each cut and followed by noise.
const TIMES: usize = 4;

/// Faults that are seldom drawn, in a cluster of five of which one may crash.
const BY_HAND: &[&str] = &[
    // A cell of 0 beside one that stands: alone, before a cell that is torn,
    // before bytes left over, and on a light sheet.
    "00230300000100010006000000C800000000",
    "00230300000100010006000000000000",
    "0023030000010001000600000000000000C800",
    "0023030000010001000600000000000003E8",
    // A bit from n on in a cell map: without cells, with both, and on a sheet
    // that is light if its cell is passed over.
    "00230300000100010022",
    "0023030000010001002200000064000000C8",
    "00230300000100010022000003E8",
    // A row's total above 16,000, before a row that is torn.
    "0023030000030001000200004E200001",
    // A note of 0 before a byte left over.
    "004F010000010000000100000000FF",
    // A register of stamp 0 and desk 0, with no value and with one.
    "001303000000000000000000",
    "00130300000000000000000101",
    // The largest cell is in its range: what is wrong is that the next is torn.
    "00230300000100010006FFFFFFFF0000",
];

pub fn lines(random: &mut Random) -> Vec<Line> {
    let mut lines = Vec::new();
    for &place in Place::ALL {
        if matches!(place.number(), 3 | 4) {
            for _ in 0..TIMES {
                lines.extend(cut_and_followed(random, place));
            }
        }
    }
    for hex in BY_HAND {
        let line = parse(&format!("message 5 1 {hex}"));
        lines.push(line.ok().flatten().expect("it can be read"));
    }
    // Longer than any message, and refused before its end is looked for.
    for front in [&[0x00, 0x83][..], &[0x00, 0x03, 0x04]] {
        let bytes = [front, &[0; 1_110]].concat();
        lines.push(line(House::level(5, 1), bytes));
    }
    lines
}

/// A message refused at the place, cut right after it, and with noise there.
fn cut_and_followed(random: &mut Random, place: Place) -> [Line; 2] {
    let Command::Message { house, bytes } = refused_one(random, place, None) else {
        panic!("it is a message");
    };
    let config = house.config().expect("it is within bounds");
    let refused_there = |end: &usize| {
        let found = read(config, &bytes[..*end]).err();
        found.is_some_and(|fault| fault.place == place)
    };
    let end = (0..=bytes.len()).find(refused_there);
    let cut = bytes[..end.expect("all of it is refused there")].to_vec();
    let more = random.within(1, 8) as usize;
    let followed = [&cut[..], &random.bytes(more)].concat();
    [line(house.clone(), cut), line(house, followed)]
}
