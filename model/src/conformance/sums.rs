//! Sheets whose sums leave 32 bits, or 64 without a sign: a reader that counts
//! too narrowly takes them, and paper 01 refuses each.

use super::line::{sheet, Row};
use crate::weights::{Ledger, MOST};

/// A level cluster and a sheet that is refused there.
pub struct Refused {
    pub n: u64,
    pub f: u64,
    pub ledger: Ledger,
}

fn refused(n: u64, f: u64, rows: &[Row]) -> Refused {
    let ledger = sheet(rows);
    Refused { n, f, ledger }
}

/// The largest total of a row, that of 65,535 transfers.
pub const MOST_IN_ROW: u32 = 16_000 * 65_535;

/// Rows whose total is between their count and 16,000 times that in 32 bits
/// only: number 4.
pub fn totals() -> Vec<Refused> {
    vec![
        refused(5, 1, &[(0, 1, &[(1, u32::MAX), (2, 2)])]),
        refused(5, 1, &[(4, 7, &[(0, 1 << 31), (3, (1 << 31) + 9)])]),
        refused(3, 0, &[(1, 65_535, &[(0, u32::MAX), (2, 65_536)])]),
        refused(16, 7, &[(15, 2, &[(0, u32::MAX), (7, u32::MAX), (14, 4)])]),
    ]
}

/// Sheets on which every weight is above the floor by sums of 32 bits, with a
/// sign or without, and some are not: number 5.
pub fn weights() -> Vec<Refused> {
    // 1,000 − 400,001,000 is −400,000,000, and eight times that wraps to a
    // number above 0; what each other server has is below 2^31 when it is taken
    // eight times.
    let each = 100_000_250;
    let quarter = [(1, each), (2, each), (3, each), (4, each)];
    vec![
        refused(5, 1, &[(0, 65_535, &quarter)]),
        // Light by one, and by all that a row can have.
        refused(5, 1, &[(0, 1, &[(1, 375)])]),
        refused(5, 1, &[(0, 1, &[(1, 1_001)])]),
        refused(2, 0, &[(1, 65_535, &[(0, MOST_IN_ROW)])]),
        // One server receives more than 2^32, from five others and from all.
        refused(16, 7, &many_to_one(5)),
        refused(16, 0, &many_to_one(15)),
    ]
}

/// So many servers give server 0 the most that they can.
fn many_to_one(many: usize) -> Vec<Row<'static>> {
    let row = |giver| (giver, 65_535, &[(0, MOST_IN_ROW)][..]);
    (1..=many.min(MOST - 1)).map(row).collect()
}

#[cfg(test)]
mod tests {
    use super::*;
    use crate::conformance::line::share;
    use crate::format::{read, Message};
    use crate::place::Place;
    use crate::weights::Config;
    use crate::write::write;

    fn place(refused: &Refused) -> Option<Place> {
        let message = Message {
            ledger: refused.ledger.clone(),
            ..share(0)
        };
        let config = Config::level(refused.n, refused.f);
        let found = read(config, &write(&message)).err();
        found.map(|fault| fault.place)
    }

    #[test]
    fn all_are_refused() {
        assert!(totals()
            .iter()
            .all(|it| place(it) == Some(Place::TotalAbove)));
        assert!(weights().iter().all(|it| place(it) == Some(Place::Light)));
    }

    #[test]
    fn totals_fit_in_32_bits() {
        for Refused { ledger, .. } in totals() {
            for (&count, row) in ledger.counts.iter().zip(&ledger.cells) {
                let total = row.iter().fold(0, |sum: u32, cell| sum.wrapping_add(*cell));
                let count = u32::from(count);
                assert!(count <= total && total <= 16_000 * count);
            }
        }
    }

    #[test]
    fn weights_of_the_first_are_above_the_floor_in_32_bits() {
        let Refused { n, f, ledger } = &weights()[0];
        for weight in &ledger.weights(Config::level(*n, *f))[..*n as usize] {
            let narrow = (*weight as i32).wrapping_mul(2 * (n - f) as i32);
            assert!(narrow > 1_000 * *n as i32);
            assert!((narrow as u32) > 1_000 * *n as u32);
        }
    }
}
