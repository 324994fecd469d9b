//! Transfers in every cluster: the numbers 10 and 11, at the edge of what can be
//! spared and far beyond.

use super::one::One;
use crate::conformance::line::{share, sheet, Line};
use crate::format::Message;
use crate::random::Random;
use crate::runs::player::ROOMY;
use crate::starts::uneven;
use crate::weights::Config;

/// A server of the cluster gives. The place of the cluster chooses which.
pub fn gifts(place: usize, (n, f): (u64, u64)) -> Vec<Line> {
    let giver = place as u64 % n;
    let taker = (giver + 1) % n;
    let spare = Config::level(n, f).spare(1_000) as u64;
    let mut one = One::new(n, f, giver);
    // 11, before 10: nobody there to take it, or nothing given.
    one.transfer(giver, 1);
    one.transfer(n, u64::MAX);
    one.transfer((1 << 32) + taker, 1);
    one.transfer(taker, 0);
    // 10: these would be 1 or less if they were cut or wrapped.
    one.transfer(taker, u64::MAX);
    one.transfer(taker, (1 << 32) + 1);
    one.transfer(taker, (1 << 63) + 1);
    one.transfer(taker, spare + 1);
    one.transfer(taker, spare);
    one.transfer(taker, 1);
    if n > 1 {
        // What comes back can be given again.
        let back = Message {
            ledger: sheet(&[
                (giver as usize, 1, &[(taker as usize, spare as u32)]),
                (taker as usize, 2, &[(giver as usize, 7)]),
            ]),
            ..share(taker as u8)
        };
        one.serve(&back);
        one.transfer((giver + n - 1) % n, 8);
        one.transfer((giver + n - 1) % n, 7);
        one.transfer(taker, 1);
    }
    one.record();
    one.lines
}

/// The same cluster where it does not start level: the strongest server gives
/// all that it can spare and no more, and the taker's weight rests on its own
/// start.
pub fn uneven_gifts(random: &mut Random, (n, f): (u64, u64)) -> Vec<Line> {
    let starts = uneven(random, n, f);
    let config = Config::new(n, f, &starts).expect("it is lawful");
    let strong = (0..n).max_by_key(|&server| starts[server as usize]);
    let giver = strong.expect("n is not 0");
    let taker = (giver + 1) % n;
    let spare = config.spare(starts[giver as usize] as i64) as u64;
    let mut one = One::of(config, giver);
    one.transfer(taker, spare + 1);
    one.transfer(taker, spare);
    one.transfer(taker, 1);
    one.record();
    one.lines
}

/// A count beyond 8 bits: 300 transfers, each of 1, and a share that tells them.
pub fn many() -> Vec<Line> {
    let mut one = One::new(2, 0, 0);
    (0..300).for_each(|_| one.transfer(1, 1));
    one.record();
    one.share(ROOMY);
    one.lines
}
