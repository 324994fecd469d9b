//! What one server answers: before a house and to numbers out of bounds
//! (`bounds`), to transfers (`gifts`), where servers do not start level
//! (`starts`), at the ends of counts, lengths and sums (`ends`), to messages that
//! join and that clash (`joins`, `tags`, `order`), on an ordinary day, and, in
//! every cluster, among messages that were forged.

pub mod bounds;
pub mod ends;
pub mod gifts;
pub mod joins;
pub mod one;
pub mod order;
pub mod starts;
pub mod tags;

use super::drawn::{among_forged, ordinary_day, servers};
use super::line::Line;
use super::SEED;
use crate::random::Random;
use crate::runs::pace::pairs;

/// The clusters of the ordinary days, and how many bytes each may take.
const ORDINARY: [(u64, u64); 6] = [(1, 0), (2, 0), (3, 1), (5, 1), (7, 3), (16, 7)];
const ORDINARY_BYTES: usize = 5_000;

/// How many bytes a section with forged messages may take, and how many more for
/// each server of the cluster.
const BYTES: usize = 2_000;
const BYTES_MORE: usize = 150;

pub fn lines() -> Vec<Line> {
    let mut lines = bounds::before_a_house();
    for pair in ORDINARY {
        lines.extend(ordinary_day(pair, servers, ORDINARY_BYTES));
    }
    lines.extend(bounds::houses());
    lines.extend(bounds::nobody());
    lines.extend(starts::fresh());
    lines.extend(starts::light());
    lines.extend(starts::ends());
    lines.extend(joins::rows());
    lines.extend(joins::unions());
    lines.extend(tags::tags());
    lines.extend(order::order());
    lines.extend(order::rooms());
    lines.extend(gifts::many());
    lines.extend(ends::counts());
    lines.extend(ends::totals());
    lines.extend(ends::lengths());
    lines.extend(ends::sums());
    let random = &mut Random::new(SEED);
    for (place, pair) in pairs().into_iter().enumerate() {
        lines.extend(gifts::gifts(place, pair));
        lines.extend(gifts::uneven_gifts(random, pair));
        let bytes = BYTES + BYTES_MORE * pair.0 as usize;
        lines.extend(among_forged(place, servers, bytes));
    }
    lines
}
