//! The four calls of a C host (paper 01, the last paragraph of "Desk") as a row
//! of functions, so that every implementation is asked in the same way.

use crate::cases::Case;
use crate::{answers, proved};

/// The calls of one implementation.
pub struct Calls {
    pub check: fn(u64, u64, &[u64], &[u8]) -> i64,
    pub weight: fn(u64, u64, &[u64], u64, &[u8]) -> i64,
    pub quorum: fn(u64, u64, &[u64], u64, &[u8]) -> i64,
    pub seats: fn(&[u8]) -> i64,
}

/// What the calls answer on one case: check, weight, quorum, seats.
pub type Answers = [i64; 4];

/// The model.
pub const MODEL: Calls = Calls {
    check: answers::check,
    weight: answers::weight,
    quorum: answers::quorum,
    seats: answers::seats,
};

/// The proved library.
pub const PROVED: Calls = Calls {
    check: proved::check,
    weight: proved::weight,
    quorum: proved::quorum,
    seats: proved::seats,
};

impl Calls {
    pub fn answers(&self, case: &Case) -> Answers {
        let (n, f, starts, message) = (case.n, case.f, &case.starts, &case.message);
        [
            (self.check)(n, f, starts, message),
            (self.weight)(n, f, starts, case.server, message),
            (self.quorum)(n, f, starts, case.map, message),
            (self.seats)(&case.block),
        ]
    }
}
