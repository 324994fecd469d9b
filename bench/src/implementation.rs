//! The three that are compared. Each is a row of function pointers, so that each is called in the same way and none is inlined.

use crate::plain;
use model::calls::{Calls, MODEL, PROVED};

pub struct Implementation {
    pub name: &'static str,
    pub calls: Calls,
}

/// The C written by hand.
pub const PLAIN: Calls = Calls {
    check: plain::check,
    weight: plain::weight,
    quorum: plain::quorum,
    seats: plain::seats,
};

/// The proved library, the model and the C, in the order in which a round times them.
pub const ALL: [Implementation; 3] = [
    Implementation {
        name: "core",
        calls: PROVED,
    },
    Implementation {
        name: "model",
        calls: MODEL,
    },
    Implementation {
        name: "C",
        calls: PLAIN,
    },
];
