//! What one desk answers: to numbers out of bounds (`bounds`), to begin, ask,
//! result and drop (`calls`), to replies (`replies`, `sheets`, `kept`), at the end of a
//! phase (`phases`, `stamps`), where servers do not start level (`starts`), on an
//! ordinary day, and, for every number of servers, among messages that were
//! forged.

pub mod bounds;
pub mod calls;
pub mod kept;
pub mod one;
pub mod phases;
pub mod replies;
pub mod sheets;
pub mod stamps;
pub mod starts;

use super::drawn::{among_forged, desks, ordinary_day};
use super::line::Line;
use crate::runs::pace::pairs;

/// The clusters of the ordinary days, and how many bytes each may take.
const ORDINARY: [(u64, u64); 8] = [
    (1, 0),
    (2, 0),
    (3, 1),
    (4, 1),
    (5, 1),
    (7, 3),
    (12, 5),
    (16, 7),
];
const ORDINARY_BYTES: usize = 6_000;

/// How many bytes a section with forged messages may take, and how many more for
/// each server of the cluster.
const BYTES: usize = 2_600;
const BYTES_MORE: usize = 150;

pub fn lines() -> Vec<Line> {
    let mut lines = bounds::before_a_house();
    for pair in ORDINARY {
        lines.extend(ordinary_day(pair, desks, ORDINARY_BYTES));
    }
    lines.extend(bounds::houses());
    lines.extend(bounds::nobody());
    lines.extend(calls::begin());
    lines.extend(calls::ask());
    lines.extend(calls::longest());
    lines.extend(replies::strays());
    lines.extend(replies::operations());
    lines.extend(replies::drops());
    lines.extend(sheets::restarts());
    lines.extend(sheets::clashes());
    lines.extend(kept::kept());
    lines.extend(kept::many());
    lines.extend(phases::heads());
    lines.extend(phases::levels());
    lines.extend(phases::halves());
    lines.extend(phases::higher());
    lines.extend(starts::operations());
    lines.extend(starts::strong());
    lines.extend(starts::halves());
    lines.extend(starts::light());
    lines.extend(stamps::alone());
    lines.extend(stamps::of_three());
    for (place, pair) in pairs()
        .into_iter()
        .enumerate()
        .filter(|(_, (n, f))| is_drawn(*n, *f))
    {
        let bytes = BYTES + BYTES_MORE * pair.0 as usize;
        lines.extend(among_forged(place, desks, bytes));
    }
    lines
}

/// Of the clusters with n servers those with the least, the middle and the most
/// that may crash.
fn is_drawn(n: u64, f: u64) -> bool {
    let most = n.div_ceil(2) - 1;
    [0, most.div_ceil(2), most].contains(&f)
}
