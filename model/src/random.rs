//! A small seeded generator (splitmix64) and the plain numbers of a case drawn
//! from it: clusters in and out of bounds, servers, maps of servers and blocks.
//! The bounds are those of paper 01, "Sheets", "Numbers handed out" and "Seats
//! on offer". Equal seeds give equal draws on every machine.

/// Far numbers: a program that cuts a number to 8, 16 or 32 bits, or lets 2f
/// wrap, would take one of these plus a small number for the small number.
pub const FAR: [u64; 6] = [1 << 8, 1 << 16, 1 << 31, 1 << 32, 1 << 62, 1 << 63];

/// The state of the generator.
#[derive(Clone, Debug)]
pub struct Random {
    state: u64,
}

impl Random {
    pub fn new(seed: u64) -> Random {
        Random { state: seed }
    }

    /// The generator of one case among those of a seed, so that a case can be
    /// drawn again without those before it.
    pub fn of_case(seed: u64, case: u64) -> Random {
        let first = Random::new(seed).word();
        let second = Random::new(case ^ 0x6A09_E667_F3BC_C908).word();
        Random::new(first ^ second.rotate_left(32))
    }

    /// The next 64 bits.
    pub fn word(&mut self) -> u64 {
        self.state = self.state.wrapping_add(0x9E37_79B9_7F4A_7C15);
        let mut mixed = self.state;
        mixed = (mixed ^ mixed >> 30).wrapping_mul(0xBF58_476D_1CE4_E5B9);
        mixed = (mixed ^ mixed >> 27).wrapping_mul(0x94D0_49BB_1331_11EB);
        mixed ^ mixed >> 31
    }

    /// A number from 0 to bound − 1; the bound is not 0.
    pub fn below(&mut self, bound: u64) -> u64 {
        // The high half of a product: close enough to even for drawing cases.
        ((u128::from(self.word()) * u128::from(bound)) >> 64) as u64
    }

    /// A number from low to high, both included.
    pub fn within(&mut self, low: u64, high: u64) -> u64 {
        low + self.below(high - low + 1)
    }

    /// An index below a length that is not 0.
    pub fn index(&mut self, length: usize) -> usize {
        self.below(length as u64) as usize
    }

    /// True once in so many times.
    pub fn one_in(&mut self, times: u64) -> bool {
        self.below(times) == 0
    }

    /// One of a list that is not empty.
    pub fn pick<'a, T>(&mut self, list: &'a [T]) -> &'a T {
        &list[self.index(list.len())]
    }

    /// A number from 1 to most: often small, sometimes at an end, else any.
    pub fn from_one(&mut self, most: u64) -> u64 {
        match self.below(8) {
            0 => 1,
            1 => most,
            2..=4 => self.within(1, most.min(1_000)),
            _ => self.within(1, most),
        }
    }

    pub fn fill(&mut self, bytes: &mut [u8]) {
        for chunk in bytes.chunks_mut(8) {
            let drawn = self.word().to_le_bytes();
            chunk.copy_from_slice(&drawn[..chunk.len()]);
        }
    }

    /// So many random bytes.
    pub fn bytes(&mut self, length: usize) -> Vec<u8> {
        let mut bytes = vec![0; length];
        self.fill(&mut bytes);
        bytes
    }
}

/// A cluster within bounds: every n, and every f that n allows.
pub fn cluster(random: &mut Random) -> (u64, u64) {
    let n = match random.below(8) {
        0..=1 => 16,
        2 => 5,
        _ => random.within(1, 16),
    };
    (n, random.below(n.div_ceil(2)))
}

/// A cluster out of bounds, near the bounds of one within, or far off.
pub fn bad_cluster(random: &mut Random) -> (u64, u64) {
    let (n, f) = cluster(random);
    match random.below(8) {
        0 => (0, f),
        1 => (17, f),
        2 => (random.within(17, 300), f),
        3 => (n + random.pick(&FAR), f),
        4 => (n, n.div_ceil(2)),
        5 => (n, random.within(n.div_ceil(2), 40)),
        6 => (n, f + random.pick(&FAR)),
        _ => (random.word() | 1 << 40, random.word()),
    }
}

/// A server, most often below n.
pub fn server(random: &mut Random, n: u64) -> u64 {
    let inside = random.below(n.clamp(1, 16));
    match random.below(16) {
        0 => n,
        1 => random.within(n.min(20), 20),
        2 => inside + random.pick(&FAR),
        3 if random.one_in(2) => random.word(),
        _ => inside,
    }
}

/// A map of servers, most often with bits below n only.
pub fn server_map(random: &mut Random, n: u64) -> u64 {
    let all = (1 << n.clamp(1, 16)) - 1;
    let some = random.word() & all;
    match random.below(24) {
        0 => all,
        1 => 0,
        2 => some | (all + 1),
        3 => some | 1 << random.below(64),
        4 => some | random.pick(&FAR),
        5 => random.word() & 0xFFFF,
        6 => random.word(),
        7..=8 => some | (random.word() & all),
        _ => some,
    }
}

/// A block of seats, sometimes too long.
pub fn block(random: &mut Random) -> Vec<u8> {
    let length = match random.below(16) {
        0 => 0,
        1 => 64,
        2 => 65,
        3 => random.within(65, 600),
        _ => random.within(0, 64),
    };
    let mut block = random.bytes(length as usize);
    match random.below(8) {
        0 => block.fill(0x00),
        1 => block.fill(0xFF),
        _ => {}
    }
    block
}

#[cfg(test)]
mod tests {
    use super::*;

    #[test]
    fn draws_stay_within() {
        let mut random = Random::new(1);
        let mut seen = [0; 5];
        for _ in 0..10_000 {
            let drawn = random.within(3, 7);
            seen[drawn as usize - 3] += 1;
        }
        assert!(seen.iter().all(|&times| times > 1_500), "{seen:?}");
        assert_eq!(random.within(u64::MAX - 1, u64::MAX) | 1, u64::MAX);
    }

    #[test]
    fn clusters_are_on_their_side_of_the_bounds() {
        let mut random = Random::new(2);
        for _ in 0..10_000 {
            let (n, f) = cluster(&mut random);
            assert!((1..=16).contains(&n) && 2 * f < n);
            let (n, f) = bad_cluster(&mut random);
            assert!(n == 0 || n > 16 || 2 * u128::from(f) >= u128::from(n));
        }
    }
}
