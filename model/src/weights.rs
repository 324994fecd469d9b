//! The cluster, the sheet of transfers and what weighs what: paper 01,
//! "Sheets", with the start weights of paper 02, N2. The paper's house is
//! `Config` here and its sheet is `Ledger`. All sums are in i64, where they
//! cannot wrap: 16 cells of 32 bits are far less.

use crate::place::Place;

/// The most servers that a cluster may have.
pub const MOST: usize = 16;

/// What each server of a level cluster weighs at the start.
pub const START: u16 = 1_000;

/// The most that all servers of a cluster may weigh together.
pub const MOST_WEIGHT: u64 = 16_000;

/// A cluster within bounds: 1 ≤ n ≤ 16 servers, a crash limit f, 2f < n, and
/// what each server weighs at the start, all above the floor and together at
/// most 16,000.
#[derive(Clone, Copy, Debug, PartialEq, Eq)]
pub struct Config {
    n: usize,
    f: usize,
    /// 0 from n on.
    starts: [u16; MOST],
    /// The sum of the start weights.
    total: i64,
}

impl Config {
    /// The cluster, or the refusal of numbers out of bounds, or else of the list.
    pub fn new(n: u64, f: u64, starts: &[u64]) -> Result<Config, Place> {
        // f < n ≤ 16 is tested first, so that 2f cannot wrap.
        if !((1..=MOST as u64).contains(&n) && f < n && 2 * f < n) {
            return Err(Place::House);
        }
        let (n, f) = (n as usize, f as usize);
        if starts.len() != n {
            return Err(Place::StartsLength);
        }
        // Each is tested before it is added, so that the sum cannot wrap.
        let one_passes = starts.iter().any(|&start| start > MOST_WEIGHT);
        if one_passes || starts.iter().sum::<u64>() > MOST_WEIGHT {
            return Err(Place::StartsSum);
        }
        let config = Config::untested(n, f, starts);
        match starts.iter().all(|&start| config.above_floor(start as i64)) {
            true => Ok(config),
            false => Err(Place::StartsFloor),
        }
    }

    /// A cluster whose start weights are taken as they are, at most 16 of them
    /// and cut to 16 bits: for what gets their test wrong.
    pub fn untested(n: usize, f: usize, list: &[u64]) -> Config {
        let mut starts = [0; MOST];
        for (start, &given) in starts.iter_mut().zip(list) {
            *start = given as u16;
        }
        Config {
            n,
            f,
            starts,
            total: starts.iter().map(|&start| i64::from(start)).sum(),
        }
    }

    /// A cluster within bounds whose servers start level.
    pub fn level(n: u64, f: u64) -> Config {
        Config::new(n, f, &level(n)).expect("the cluster is within bounds")
    }

    /// The number of servers.
    pub fn n(self) -> usize {
        self.n
    }

    /// The crash limit.
    pub fn f(self) -> usize {
        self.f
    }

    /// Whether every server starts at 1,000.
    pub fn is_level(self) -> bool {
        self.starts[..self.n].iter().all(|&start| start == START)
    }

    /// What each server weighs at the start, as a call takes it.
    pub fn starts(self) -> Vec<u64> {
        let starts = self.starts[..self.n].iter();
        starts.map(|&start| start.into()).collect()
    }

    /// What each server weighs at the start, 0 from n on.
    pub fn start_weights(self) -> [i64; MOST] {
        self.starts.map(i64::from)
    }

    /// The weight of all servers together, W.
    pub fn total(self) -> i64 {
        self.total
    }

    /// Whether a weight is above the floor.
    pub fn above_floor(self, weight: i64) -> bool {
        weight * 2 * (self.n - self.f) as i64 > self.total
    }

    /// The least weight that is above the floor.
    pub fn least(self) -> i64 {
        self.total / (2 * (self.n - self.f) as i64) + 1
    }

    /// What a server of this weight can give and stay above the floor; below 0
    /// if it is light.
    pub fn spare(self, weight: i64) -> i64 {
        weight - self.least()
    }

    /// Twice the weight of the servers that a map names, less W (paper 02, N1):
    /// above 0 they are a quorum, and at 0 and below they are not.
    pub fn margin(self, weights: &[i64; MOST], map: u16) -> i64 {
        let named: i64 = bits(map).map(|server| weights[server]).sum();
        2 * named - self.total
    }

    /// Whether a map names servers below n only.
    pub fn names_servers(self, map: u64) -> bool {
        map >> self.n == 0
    }
}

/// The start weights of a level cluster. Of an n out of bounds, for which no
/// list is looked at, there are 16.
pub fn level(n: u64) -> Vec<u64> {
    vec![START.into(); n.min(MOST as u64) as usize]
}

/// The transfers that a party knows: how many each giver made, and what giver
/// i gave taker j in all (`cells[i][j]`).
#[derive(Clone, Debug, PartialEq, Eq)]
pub struct Ledger {
    pub counts: [u16; MOST],
    pub cells: [[u32; MOST]; MOST],
}

impl Ledger {
    /// The ledger without a transfer.
    pub const FRESH: Ledger = Ledger {
        counts: [0; MOST],
        cells: [[0; MOST]; MOST],
    };

    /// What every server weighs: its start weight + received − given.
    pub fn weights(&self, config: Config) -> [i64; MOST] {
        let mut weights = config.start_weights();
        for (giver, row) in self.cells.iter().enumerate() {
            for (weight, &received) in weights.iter_mut().zip(row) {
                *weight += i64::from(received);
            }
            let given: i64 = row.iter().map(|&amount| i64::from(amount)).sum();
            weights[giver] -= given;
        }
        weights
    }

    /// Whether some server of the cluster is not above the floor.
    pub fn is_light(&self, config: Config) -> bool {
        self.weights(config)[..config.n]
            .iter()
            .any(|&weight| !config.above_floor(weight))
    }

    /// The margin of the servers that a map names.
    pub fn margin(&self, config: Config, map: u16) -> i64 {
        config.margin(&self.weights(config), map)
    }
}

/// The places of the ones in a map, upward.
pub fn bits(mut map: u16) -> impl Iterator<Item = usize> {
    std::iter::from_fn(move || {
        let lowest = (map != 0).then(|| map.trailing_zeros() as usize)?;
        map &= map - 1;
        Some(lowest)
    })
}

#[cfg(test)]
mod tests {
    use super::*;

    #[test]
    fn cluster_bounds() {
        for (n, f) in [(1, 0), (2, 0), (3, 1), (4, 1), (5, 2), (16, 0), (16, 7)] {
            assert!(Config::new(n, f, &level(n)).is_ok(), "{n} {f}");
        }
        let huge = 1 << 63;
        for (n, f) in [
            (0, 0),
            (17, 0),
            (1, 1),
            (2, 1),
            (4, 2),
            (16, 8),
            (5, huge),
            (huge, 1),
        ] {
            for starts in [level(n), level(5), vec![], vec![u64::MAX]] {
                assert_eq!(Config::new(n, f, &starts), Err(Place::House), "{n} {f}");
            }
        }
    }

    #[test]
    fn start_weights() {
        for (n, f, starts) in [
            (1, 0, &[1][..]),
            (1, 0, &[16_000]),
            (2, 0, &[299, 100]),
            (2, 0, &[11_999, 4_001]),
            (5, 1, &[2_200, 700, 700, 700, 700]),
            (16, 7, &[1_000; 16]),
        ] {
            let config = Config::new(n, f, starts).expect("it is lawful");
            assert_eq!(config.starts(), starts);
            assert_eq!(config.total(), starts.iter().sum::<u64>() as i64);
        }
        for (n, f, starts, place) in [
            (2, 0, &[1_000][..], Place::StartsLength),
            (2, 0, &[1_000; 3], Place::StartsLength),
            (2, 0, &[], Place::StartsLength),
            (2, 0, &[1_000, 1_000, 0], Place::StartsLength),
            (1, 0, &[16_001], Place::StartsSum),
            (2, 0, &[8_000, 8_001], Place::StartsSum),
            (2, 0, &[1 << 63, 1 << 63], Place::StartsSum),
            (2, 0, &[u64::MAX, 17], Place::StartsSum),
            (2, 0, &[u64::MAX; 2], Place::StartsSum),
            (1, 0, &[0], Place::StartsFloor),
            (2, 0, &[0, 0], Place::StartsFloor),
            (2, 0, &[300, 100], Place::StartsFloor),
            (2, 0, &[301, 100], Place::StartsFloor),
            (5, 1, &[2_500, 625, 625, 625, 625], Place::StartsFloor),
        ] {
            assert_eq!(Config::new(n, f, starts), Err(place), "{starts:?}");
        }
    }

    #[test]
    fn floor_of_the_papers_cases() {
        for (n, f, gift) in [(5, 1, 374), (4, 1, 333), (16, 7, 111)] {
            let config = Config::level(n, f);
            assert!(config.above_floor(1_000 - gift));
            assert!(!config.above_floor(1_000 - gift - 1));
            assert_eq!(config.spare(1_000), gift);
        }
    }

    #[test]
    fn margins_of_fresh_servers() {
        for (n, map, margin) in [
            (4, 0b0011, 0),
            (4, 0b1110, 2_000),
            (5, 0b1_0001, -1_000),
            (5, 0b0_0111, 1_000),
            (1, 0, -1_000),
            (16, 0, -16_000),
            (16, u16::MAX, 16_000),
        ] {
            let config = Config::level(n, 0);
            assert_eq!(Ledger::FRESH.margin(config, map), margin, "{n} {map:b}");
        }
        let strong = Config::new(2, 0, &[299, 100]).expect("it is lawful");
        for (map, margin) in [(0, -399), (0b01, 199), (0b10, -199), (0b11, 399)] {
            assert_eq!(Ledger::FRESH.margin(strong, map), margin, "{map:b}");
        }
    }

    #[test]
    fn weights_keep_their_total() {
        let mut ledger = Ledger::FRESH;
        ledger.cells[3][5] = u32::MAX;
        ledger.cells[0][3] = 7;
        let starts: Vec<u64> = (0..16).map(|server| 900 + server).collect();
        for config in [
            Config::level(16, 7),
            Config::new(16, 7, &starts).expect("it is lawful"),
        ] {
            let weights = ledger.weights(config);
            assert_eq!(weights.iter().sum::<i64>(), config.total());
            let start = config.start_weights()[3];
            assert_eq!(weights[3], start + 7 - i64::from(u32::MAX));
        }
    }
}
