//! The four answers that a C host gets about messages and blocks, by the model:
//! paper 01, the last paragraph of "Desk", with the list of start weights of
//! paper 02, N2. Each is one signed number; a refusal k is −1,000,000 − k, which
//! no other answer is. `proved` has the same four signatures over the proved
//! library.

use crate::format::{read, Message};
use crate::place::{Fault, Place};
use crate::seats::on_offer;
use crate::weights::Config;

/// The number for a server or a map out of bounds, the same as for the house.
const BAD_HOUSE: u8 = Place::House.number();

/// The number for a value or block over 64 bytes.
const LONG: u8 = 14;

/// A refusal as the C host gets it.
pub fn refusal(number: u8) -> i64 {
    -1_000_000 - i64::from(number)
}

/// The cluster and the message, or the first fault: n and f come first, and then
/// the list.
pub fn open<'a>(
    n: u64,
    f: u64,
    starts: &[u64],
    msg: &'a [u8],
) -> Result<(Config, Message<'a>), Fault> {
    let config = Config::new(n, f, starts)?;
    Ok((config, read(config, msg)?))
}

/// 0 for a message that passes.
pub fn check(n: u64, f: u64, starts: &[u64], msg: &[u8]) -> i64 {
    match open(n, f, starts, msg) {
        Ok(_) => 0,
        Err(fault) => refusal(fault.number),
    }
}

/// The weight of a server by the message's sheet.
pub fn weight(n: u64, f: u64, starts: &[u64], server: u64, msg: &[u8]) -> i64 {
    match open(n, f, starts, msg) {
        Ok(_) if server >= n => refusal(BAD_HOUSE),
        Ok((config, message)) => message.ledger.weights(config)[server as usize],
        Err(fault) => refusal(fault.number),
    }
}

/// The margin of the servers that the map names, by the message's sheet: twice
/// their weight, less W (paper 02, N1).
pub fn quorum(n: u64, f: u64, starts: &[u64], map: u64, msg: &[u8]) -> i64 {
    match open(n, f, starts, msg) {
        Ok((config, _)) if !config.names_servers(map) => refusal(BAD_HOUSE),
        // The map is below 2^n, so that no bit of it is lost.
        Ok((config, message)) => message.ledger.margin(config, map as u16),
        Err(fault) => refusal(fault.number),
    }
}

/// The seats on offer in a block.
pub fn seats(block: &[u8]) -> i64 {
    on_offer(block).map_or(refusal(LONG), i64::from)
}
