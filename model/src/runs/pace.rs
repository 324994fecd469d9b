//! What is fixed for a whole run: the cluster, the desks, and how often what
//! happens. Each run is of one pace; all 72 pairs of n and f come in turn, with
//! servers that start level or not.

use crate::machine::command::House;
use crate::random::Random;
use crate::starts::uneven;
use crate::weights::level;

/// All pairs (n, f) with 1 ≤ n ≤ 16 and 2f < n.
pub fn pairs() -> Vec<(u64, u64)> {
    let of = |n: u64| (0..n.div_ceil(2)).map(move |f| (n, f));
    (1..=16).flat_map(of).collect()
}

/// How a run goes. Rates are out of 1,000 choices of what to do next.
#[derive(Clone, Debug)]
pub struct Pace {
    /// A lawful one.
    pub house: House,
    /// Steps of the store after which the run stops.
    pub steps: u64,
    pub desks: Vec<u64>,
    /// How many of them are at work at the same time.
    pub at_once: usize,
    /// Transfers, and how many of them give all that can be spared.
    pub transfers: u64,
    pub whole: u64,
    /// Weight moves for so many choices, and rests for as many; 0 for always.
    pub calm: u64,
    /// Times at which many give one all that they can spare.
    pub pours: u64,
    pub shares: u64,
    /// A transfer is told to all at once.
    pub tells: bool,
    pub losses: u64,
    /// Messages that stay on their way after they arrived.
    pub doubles: u64,
    pub crashes: u64,
    pub drops: u64,
    pub misuses: u64,
    pub helpers: u64,
    /// Whether an operation goes by a few servers of its own at first.
    pub narrow: bool,
    /// A server whose messages are held back.
    pub slow: Option<u64>,
    /// Whether lines are written in other ways now and then.
    pub dressed: bool,
    /// Whether there are lines before the first house.
    pub early: bool,
}

impl Pace {
    /// The pace of a run.
    pub fn draw(random: &mut Random, number: u64) -> Pace {
        if number % 4 == 3 {
            return Pace::tight(random);
        }
        let pairs = pairs();
        let (n, f) = pairs[(number - number / 4) as usize % pairs.len()];
        let steps = match random.below(64) {
            0 => random.within(3_000, 9_000),
            1..=8 => random.within(800, 1_500),
            _ => random.within(150, 600),
        };
        Pace {
            house: house(random, n, f),
            steps,
            desks: desks(random),
            at_once: *random.pick(&[2, 4, 17]),
            transfers: *random.pick(&[0, 4, 10, 20, 40, 80]),
            calm: *random.pick(&[0, 60, 150, 300]),
            whole: random.below(1_000),
            pours: *random.pick(&[0, 0, 0, 2, 5]),
            shares: *random.pick(&[0, 5, 20, 60]),
            tells: random.one_in(4),
            losses: *random.pick(&[0, 10, 40]),
            doubles: *random.pick(&[0, 50, 200]),
            crashes: *random.pick(&[0, 0, 0, 1, 4, 8]),
            drops: *random.pick(&[0, 2, 10]),
            misuses: *random.pick(&[0, 20, 80, 160]),
            helpers: *random.pick(&[0, 10, 40]),
            narrow: random.one_in(2),
            slow: random.one_in(3).then(|| random.below(n)),
            dressed: random.one_in(3),
            early: random.one_in(5),
        }
    }

    /// Few servers and two or three desks, weight that moves as far as it can
    /// and is told to all: where a store that is almost right goes wrong.
    fn tight(random: &mut Random) -> Pace {
        let (n, f) = *random.pick(&[
            (2, 0),
            (3, 0),
            (3, 0),
            (3, 1),
            (4, 0),
            (4, 1),
            (5, 0),
            (5, 1),
        ]);
        let desks = match random.below(3) {
            0 => vec![1, 2],
            1 => vec![1, 2, 3, 65_534, 65_535],
            _ => (1..=16).collect(),
        };
        Pace {
            house: house(random, n, f),
            steps: random.within(60, 400),
            desks,
            at_once: 2,
            transfers: *random.pick(&[0, 15, 40]),
            calm: 0,
            whole: 900,
            pours: *random.pick(&[0, 10, 20]),
            shares: *random.pick(&[0, 5, 30]),
            tells: random.one_in(3),
            losses: 0,
            doubles: *random.pick(&[0, 200, 500]),
            crashes: 0,
            drops: *random.pick(&[0, 5]),
            misuses: *random.pick(&[0, 0, 20]),
            helpers: 0,
            narrow: true,
            slow: random.one_in(2).then(|| random.below(n)),
            dressed: false,
            early: false,
        }
    }
}

/// The cluster of these numbers: level, without a list or with one, or uneven.
pub fn house(random: &mut Random, n: u64, f: u64) -> House {
    match random.below(8) {
        0..=2 => House::level(n, f),
        3 => House::with_starts(n, f, level(n)),
        _ => House::with_starts(n, f, uneven(random, n, f)),
    }
}

/// Desk numbers, most often few, the ends of their range among them.
fn desks(random: &mut Random) -> Vec<u64> {
    let many = match random.below(12) {
        0 => 16,
        1 => 17,
        2 => random.within(4, 10),
        _ => random.within(1, 3),
    };
    let mut desks = Vec::new();
    while (desks.len() as u64) < many {
        let desk = random.from_one(65_535);
        if !desks.contains(&desk) {
            desks.push(desk);
        }
    }
    desks
}

#[cfg(test)]
mod tests {
    use super::*;

    #[test]
    fn there_are_72_pairs() {
        assert_eq!(pairs().len(), 72);
    }
}
