//! The lines of a section, each with its message as bytes, and plain messages to
//! put into them.

use crate::format::{Kind, Message, Register};
use crate::machine::command::{Command, House};
use crate::machine::server::Room;
use crate::weights::Ledger;

/// A line of a file.
pub type Line = Command<Vec<u8>>;

/// A line as it is written.
pub fn text(line: &Line) -> String {
    line.line(|bytes| bytes)
}

/// Clusters out of bounds, also by numbers that are within when they are cut to
/// fewer bits, or doubled.
pub const BAD_HOUSES: [(u64, u64); 14] = [
    (0, 0),
    (17, 0),
    (1, 1),
    (2, 1),
    (4, 2),
    (16, 8),
    (5, 1 << 63),
    (5, u64::MAX),
    (u64::MAX, 0),
    ((1 << 8) + 5, 1),
    ((1 << 32) + 5, 1),
    ((1 << 63) + 5, 1),
    (5, (1 << 8) + 1),
    (5, (1 << 32) + 1),
];

/// Lists of start weights that are refused with 15: not n long, whatever they
/// hold; above 16,000 together, also where the sum wraps or each is small when it
/// is cut to fewer bits; and at the floor or below.
pub const BAD_LISTS: [(u64, u64, &[u64]); 25] = [
    (2, 0, &[]),
    (2, 0, &[1_000]),
    (2, 0, &[1_000, 1_000, 1_000]),
    (2, 0, &[1_000, 1_000, 0]),
    (2, 0, &[2_000, 0]),
    (1, 0, &[0]),
    (1, 0, &[16_001]),
    (1, 0, &[17_000]),
    (1, 0, &[(1 << 16) + 1_000]),
    (1, 0, &[(1 << 32) + 1_000]),
    (1, 0, &[u64::MAX]),
    (2, 0, &[8_000, 8_001]),
    (2, 0, &[1 << 63, 1 << 63]),
    (2, 0, &[u64::MAX, 17]),
    (2, 0, &[u64::MAX, 1_001]),
    (2, 0, &[u64::MAX, u64::MAX]),
    (2, 0, &[0, 0]),
    (2, 0, &[300, 100]),
    (2, 0, &[100, 301]),
    (3, 1, &[1_600, 800, 800]),
    (4, 1, &[1_000, 1_000, 1_000]),
    (5, 1, &[2_500, 625, 625, 625, 625]),
    (5, 2, &[1_500, 750, 750, 750, 750]),
    (16, 7, &[1_000; 15]),
    (
        16,
        7,
        &[
            1_001, 1_000, 1_000, 1_000, 1_000, 1_000, 1_000, 1_000, 1_000, 1_000, 1_000, 1_000,
            1_000, 1_000, 1_000, 1_000,
        ],
    ),
];

/// The houses of these lists.
pub fn bad_lists() -> impl Iterator<Item = House> {
    BAD_LISTS.into_iter().map(with_list)
}

/// Lists that are lawful: of as little as there can be, of 16,000 in all, just
/// above the floor, and with one strong server.
pub const LISTS: [(u64, u64, &[u64]); 12] = [
    (1, 0, &[1]),
    (1, 0, &[16_000]),
    (2, 0, &[1, 1]),
    (2, 0, &[299, 100]),
    (2, 0, &[11_999, 4_001]),
    (3, 1, &[1_598, 801, 801]),
    (4, 1, &[1, 1, 1, 1]),
    (5, 1, &[2_200, 700, 700, 700, 700]),
    (5, 2, &[2_669, 3_331, 3_333, 3_333, 3_334]),
    (7, 0, &[3_000, 400, 400, 400, 400, 400, 400]),
    (7, 3, &[9, 8, 8, 8, 8, 8, 8]),
    (
        16,
        7,
        &[
            1_000, 1_001, 999, 1_002, 998, 1_003, 997, 1_004, 996, 1_005, 995, 1_006, 994, 1_007,
            993, 1_000,
        ],
    ),
];

/// The houses of these lists.
pub fn lists() -> impl Iterator<Item = House> {
    LISTS.into_iter().map(with_list)
}

fn with_list((n, f, starts): (u64, u64, &[u64])) -> House {
    House::with_starts(n, f, starts.to_vec())
}

/// A request to a server, with no register, sheet or note.
pub fn request(server: u8, desk: u16, round: u32) -> Message<'static> {
    Message {
        kind: Kind::Request,
        server,
        desk: Some(desk),
        round: Some(round),
        register: None,
        ledger: Ledger::FRESH,
        note: None,
    }
}

/// A reply of a server to a desk, with no register, sheet or note.
pub fn reply(server: u8, desk: u16, round: u32) -> Message<'static> {
    Message {
        kind: Kind::Reply,
        ..request(server, desk, round)
    }
}

/// A share of a server that has nothing to tell.
pub fn share(server: u8) -> Message<'static> {
    Message {
        kind: Kind::Share,
        server,
        desk: None,
        round: None,
        register: None,
        ledger: Ledger::FRESH,
        note: None,
    }
}

/// A register that is not the start.
pub fn register(stamp: u32, desk: u16, value: &[u8]) -> Option<Register<'_>> {
    Some(Register { stamp, desk, value })
}

/// A row of a sheet: the giver, its count, and what it gave to whom.
pub type Row<'a> = (usize, u16, &'a [(usize, u32)]);

/// A sheet with these rows.
pub fn sheet(rows: &[Row]) -> Ledger {
    let mut ledger = Ledger::FRESH;
    for &(giver, count, cells) in rows {
        ledger.counts[giver] = count;
        for &(taker, amount) in cells {
            ledger.cells[giver][taker] = amount;
        }
    }
    ledger
}

/// All servers but one give each other the same by every step, so that all rows
/// have all cells and no weight moves; with that one each gives and takes 1.
/// Its own row has the count that it has when it gave 1 to each.
pub fn full_sheet(n: usize, own: usize) -> Ledger {
    let others: Vec<usize> = (0..n).filter(|&server| server != own).collect();
    let many = others.len();
    let mut ledger = Ledger::FRESH;
    ledger.counts[own] = many as u16;
    for (place, &giver) in others.iter().enumerate() {
        ledger.counts[giver] = u16::MAX - place as u16;
        ledger.cells[own][giver] = 1;
        ledger.cells[giver][own] = 1;
        for step in 1..many {
            ledger.cells[giver][others[(place + step) % many]] =
                0x0100_0001 * step as u32 / 4 + 65_535;
        }
    }
    ledger
}

/// A buffer of so many bytes, written from its first place on.
pub fn exactly(len: u64) -> Room {
    Room { at: 0, len }
}

#[cfg(test)]
mod tests {
    use super::*;

    #[test]
    fn lists_are_on_their_side_of_the_law() {
        for house in lists() {
            assert!(house.config().is_ok(), "{house:?}");
        }
        for house in bad_lists() {
            let number = house.config().map_err(|place| place.number());
            assert_eq!(number, Err(15), "{house:?}");
        }
    }
}
