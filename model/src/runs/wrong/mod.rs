//! Wrong stores that come close: paper 01, the section of that name, and such as
//! misread paper 02. Each is the plain machine with one call exchanged, beside
//! the clauses that it must break.

mod calls;
mod hears;

use super::observer::Clause;
use super::store::Store;
use crate::machine::calls::Calls;
use crate::machine::program::Program;
use crate::machine::transfers::Transfers;
use calls::{LevelFloor, NoRestarts, OpensAtFloor, RefusesAll, SheetAlone, SpentEarly, Unheard};
use hears::{
    AllLate, CountedTwice, FIRST_REPLY, FIXED_TAG, HALF, HEAD_COUNT, LEVEL_QUORUM, NEVER_ENDS,
    OTHER_SHEET,
};

/// A wrong store: its name, how it is opened, and the clauses that it has to
/// break: those that the paper names, and where it shows the margins.
pub struct Wrong {
    pub name: &'static str,
    pub open: fn() -> Box<dyn Store>,
    pub breaks: &'static [Clause],
}

fn store<C: Calls<Transfers> + 'static>(calls: C) -> Box<dyn Store> {
    Box::new(Program::new(calls))
}

/// The paper's list in its order; a quorum by heads, which of demand 3 only the
/// equality excludes; half of the weight for a quorum; and such as forget the
/// start weights in one place.
pub const WRONG: &[Wrong] = &[
    Wrong {
        name: "joins a share's sheet but not its register",
        open: || store(SheetAlone),
        breaks: &[Clause::Order],
    },
    Wrong {
        name: "counts a reply made on another sheet",
        open: || store(OTHER_SHEET),
        breaks: &[Clause::Order],
    },
    Wrong {
        name: "counts a server twice",
        open: || store(CountedTwice::default()),
        breaks: &[Clause::Order],
    },
    Wrong {
        name: "weighs a giver by unheard gifts",
        open: || store(Unheard),
        breaks: &[Clause::Sheets],
    },
    Wrong {
        name: "ends at its first reply and idles after",
        open: || store(FIRST_REPLY),
        breaks: &[Clause::Equality],
    },
    Wrong {
        name: "never ends",
        open: || store(NEVER_ENDS),
        breaks: &[Clause::Equality],
    },
    Wrong {
        name: "refuses everything",
        open: || store(RefusesAll),
        breaks: &[Clause::Equality],
    },
    Wrong {
        name: "calls all late",
        open: || store(AllLate),
        breaks: &[Clause::Equality],
    },
    Wrong {
        name: "says spent before the limit",
        open: || store(SpentEarly),
        breaks: &[Clause::Equality],
    },
    Wrong {
        name: "has a fixed tag",
        open: || store(FIXED_TAG),
        breaks: &[Clause::Equality, Clause::Order, Clause::Values],
    },
    Wrong {
        name: "reports no restarts",
        open: || store(NoRestarts),
        breaks: &[Clause::Equality, Clause::Restarts],
    },
    Wrong {
        name: "counts heads and not weight",
        open: || store(HEAD_COUNT),
        breaks: &[Clause::Equality, Clause::Margins],
    },
    Wrong {
        name: "takes half of the weight for a quorum",
        open: || store(HALF),
        breaks: &[Clause::Equality, Clause::Order],
    },
    Wrong {
        name: "opens a house with a start weight at the floor",
        open: || store(OpensAtFloor),
        breaks: &[Clause::Equality, Clause::Sheets],
    },
    Wrong {
        name: "has the floor of level servers in a transfer",
        open: || store(LevelFloor),
        breaks: &[Clause::Equality, Clause::Sheets],
    },
    Wrong {
        name: "has the quorums of level servers in hear",
        open: || store(LEVEL_QUORUM),
        breaks: &[Clause::Equality, Clause::Order, Clause::Margins],
    },
];
