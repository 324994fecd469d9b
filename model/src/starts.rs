//! Random lists of start weights: paper 02, N2. Lawful ones, from level to as
//! uneven as the floor allows, and such as are refused with 15, by each cause:
//! at its edge, and by numbers that would be lawful if they were cut to fewer
//! bits or if their sum wrapped.

use crate::random::{cluster, Random, FAR};
use crate::weights::{level, Config, MOST_WEIGHT};

/// A cluster within bounds, level or not.
pub fn config(random: &mut Random) -> Config {
    let (n, f) = cluster(random);
    config_of(random, n, f)
}

/// A cluster of these numbers, which are within bounds, level or not.
pub fn config_of(random: &mut Random, n: u64, f: u64) -> Config {
    Config::new(n, f, &lawful(random, n, f)).expect("the list is lawful")
}

/// A list for a cluster within bounds: level, or any.
pub fn lawful(random: &mut Random, n: u64, f: u64) -> Vec<u64> {
    match random.below(3) {
        0 => level(n),
        _ => uneven(random, n, f),
    }
}

/// A list that need not be level. Each server has the least that is above the
/// floor, and what is left of the weight goes to one, to few or to many.
pub fn uneven(random: &mut Random, n: u64, f: u64) -> Vec<u64> {
    let (total, least) = total(random, n, f);
    let mut starts = vec![least; n as usize];
    let mut rest = total - least * n;
    for _ in 0..random.below(2 * n) {
        let part = random.within(0, rest);
        *any(random, &mut starts) += part;
        rest -= part;
    }
    *any(random, &mut starts) += rest;
    starts
}

/// What all servers weigh, up to 16,000 and often just that, and the least that
/// is then above the floor: so much that each server can have it.
fn total(random: &mut Random, n: u64, f: u64) -> (u64, u64) {
    loop {
        let total = match random.below(4) {
            0 => MOST_WEIGHT,
            1 => random.within(n, 400),
            _ => random.within(n, MOST_WEIGHT),
        };
        let least = total / (2 * (n - f)) + 1;
        if least * n <= total {
            return (total, least);
        }
    }
}

/// A list that is refused with 15 in a cluster within bounds.
pub fn unlawful(random: &mut Random, n: u64, f: u64) -> Vec<u64> {
    let mut starts = lawful(random, n, f);
    match random.below(12) {
        // Not n long.
        0 => drop(starts.pop()),
        1 => starts.push(0),
        2 => starts.push(random.below(MOST_WEIGHT)),
        3 => {
            let length = *random.pick(&[0, 1, 15, 16, 17, 18, 300]);
            starts.resize(length + usize::from(length as u64 == n), 1_000);
        }
        // The sum passes 16,000, by one and by far.
        4..=5 => {
            let sum: u64 = starts.iter().sum();
            let more = match random.below(2) {
                0 => MOST_WEIGHT + 1 - sum,
                _ => random.within(MOST_WEIGHT + 1 - sum, 70_000),
            };
            *any(random, &mut starts) += more;
        }
        6 => *any(random, &mut starts) += *random.pick(&FAR[1..]),
        7 => *any(random, &mut starts) = u64::MAX - random.below(20),
        8 => wrap(random, &mut starts),
        // At the floor, and below.
        9..=10 => starts = at_floor(random, n, f),
        _ => *any(random, &mut starts) = 0,
    }
    starts
}

/// Two numbers so large that the sum is as before if it wraps.
fn wrap(random: &mut Random, starts: &mut [u64]) {
    let large = match random.below(2) {
        0 => 1 << 63,
        _ => random.within(1 << 20, u64::MAX - (1 << 20)),
    };
    let one = random.index(starts.len());
    starts[one] = starts[one].wrapping_add(large);
    if starts.len() > 1 {
        let other = (one + 1) % starts.len();
        starts[other] = starts[other].wrapping_sub(large);
    }
}

/// One server weighs exactly what the floor is, and the others more. Of a single
/// server that can be 0 only.
fn at_floor(random: &mut Random, n: u64, f: u64) -> Vec<u64> {
    if n == 1 {
        return vec![0];
    }
    let parts = 2 * (n - f);
    let floor = random.within(n, MOST_WEIGHT / parts);
    let mut starts = vec![floor + 1; n as usize];
    let one = random.index(starts.len());
    starts[one] = floor;
    let rest = parts * floor - starts.iter().sum::<u64>();
    let other = (one + random.within(1, n - 1) as usize) % starts.len();
    starts[other] += rest;
    starts
}

/// One of a list that is not empty, to be changed.
fn any<'a, T>(random: &mut Random, list: &'a mut [T]) -> &'a mut T {
    let place = random.index(list.len());
    &mut list[place]
}

#[cfg(test)]
mod tests {
    use super::*;
    use crate::place::Place;
    use crate::runs::pace::pairs;

    #[test]
    fn lists_are_on_their_side_of_the_law() {
        let mut random = Random::new(9);
        let mut heaviest = 0;
        for (n, f) in pairs() {
            for _ in 0..500 {
                let config = config_of(&mut random, n, f);
                heaviest += u64::from(config.total() == MOST_WEIGHT as i64);
                let starts = unlawful(&mut random, n, f);
                let refused = Config::new(n, f, &starts).map_err(|place| place.number());
                assert_eq!(refused, Err(15), "{n} {f} {starts:?}");
            }
        }
        assert!(heaviest > 5_000, "{heaviest}");
    }

    #[test]
    fn one_is_at_the_floor() {
        let mut random = Random::new(10);
        for (n, f) in pairs().into_iter().filter(|(n, _)| *n > 1) {
            for _ in 0..100 {
                let starts = at_floor(&mut random, n, f);
                let total: u64 = starts.iter().sum();
                let floor = starts.iter().filter(|start| *start * 2 * (n - f) == total);
                assert_eq!(floor.count(), 1, "{n} {f} {starts:?}");
                assert_eq!(Config::new(n, f, &starts), Err(Place::StartsFloor));
            }
        }
    }

    #[test]
    fn sums_that_wrap_are_lawful_when_they_do() {
        let mut random = Random::new(11);
        for (n, f) in pairs().into_iter().filter(|(n, _)| *n > 1) {
            let mut starts = lawful(&mut random, n, f);
            let before: u64 = starts.iter().sum();
            wrap(&mut random, &mut starts);
            let after = starts
                .iter()
                .fold(0, |sum: u64, start| sum.wrapping_add(*start));
            assert_eq!(before, after);
            assert_eq!(Config::new(n, f, &starts), Err(Place::StartsSum));
        }
    }
}
