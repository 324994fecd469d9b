//! Wrong stores whose desks hear in another way: which replies they count, what
//! a quorum is to them, what they choose, when they end.

use std::cell::RefCell;
use std::collections::BTreeMap;

use crate::machine::calls::{Calls, Cluster};
use crate::machine::desk::{chosen, Desk, Heard, Operation, Phase, Task};
use crate::machine::letter::Letter;
use crate::machine::number::No;
use crate::machine::register::{Register, Tag};
use crate::machine::sheet::Sheet;
use crate::machine::transfers::Transfers;
use crate::weights::{Config, START};

/// A desk of the plain machine.
type PlainDesk = Desk<Transfers>;

/// Hear, where only what is done with a current reply is left open.
fn hear_with(
    cluster: &mut Cluster<Transfers>,
    desk: u16,
    letter: &Letter<Transfers>,
    heed: impl FnOnce(&mut PlainDesk, Config, Operation) -> Result<(), No>,
) -> Result<Heard, No> {
    let config = cluster.config;
    let desk = cluster.desk(desk);
    let Some(operation) = desk.current(letter)? else {
        return Ok(Heard::Late);
    };
    heed(desk, config, operation)?;
    Ok(Heard::Taken)
}

/// Hear, where a larger sheet restarts and what an equal one does is left open.
fn mark_with(
    cluster: &mut Cluster<Transfers>,
    desk: u16,
    letter: &Letter<Transfers>,
    mark: impl FnOnce(&mut PlainDesk, Config, Operation) -> Result<(), No>,
) -> Result<Heard, No> {
    hear_with(cluster, desk, letter, |desk, config, operation| {
        if desk.pair.sheet.lacks(&letter.pair.sheet) {
            desk.restart(operation, letter)
        } else {
            mark(desk, config, operation)
        }
    })
}

/// What a desk does with a current reply.
type Heed = fn(&mut PlainDesk, Config, Operation, &Letter<Transfers>) -> Result<(), No>;

/// A store whose desks do something else with every current reply.
pub struct Heeding(pub Heed);

impl Calls<Transfers> for Heeding {
    fn hear(
        &self,
        cluster: &mut Cluster<Transfers>,
        desk: u16,
        letter: &Letter<Transfers>,
    ) -> Result<Heard, No> {
        hear_with(cluster, desk, letter, |desk, config, operation| {
            (self.0)(desk, config, operation, letter)
        })
    }
}

/// A store whose desks do something else with a reply on an equal sheet.
pub struct Marking(pub Heed);

impl Calls<Transfers> for Marking {
    fn hear(
        &self,
        cluster: &mut Cluster<Transfers>,
        desk: u16,
        letter: &Letter<Transfers>,
    ) -> Result<Heard, No> {
        mark_with(cluster, desk, letter, |desk, config, operation| {
            (self.0)(desk, config, operation, letter)
        })
    }
}

/// In phase 2 a reply with a larger sheet marks its server, and is not joined.
pub const OTHER_SHEET: Heeding = Heeding(|desk, config, operation, letter| {
    let larger = desk.pair.sheet.lacks(&letter.pair.sheet);
    if larger && operation.phase == Phase::First {
        return desk.restart(operation, letter);
    }
    let pair = if larger { &desk.pair } else { &letter.pair };
    let counted = Letter {
        pair: pair.clone(),
        ..letter.clone()
    };
    desk.mark(config, operation, &counted)
});

/// The first reply ends the operation, in whatever phase, on whatever sheet.
pub const FIRST_REPLY: Heeding = Heeding(|desk, _, operation, letter| {
    let pair = desk.pair.join(&letter.pair);
    let register = chosen(&operation.task, desk.number, &pair.register)?;
    desk.finish(&operation, pair, register);
    Ok(())
});

/// A quorum in phase 2 changes nothing.
pub const NEVER_ENDS: Marking = Marking(|desk, config, operation, letter| match operation.phase {
    Phase::First => desk.mark(config, operation, letter),
    Phase::Second(_) => desk.marked(operation, letter, false),
});

/// Every write chooses the tag (1, 1).
pub const FIXED_TAG: Marking = Marking(|desk, config, mut operation, letter| {
    operation.answered |= 1 << letter.server;
    let quorum = desk.pair.sheet.margin(config, operation.answered) > 0;
    match (&operation.task, &operation.phase) {
        (Task::Write(value), Phase::First) if quorum => {
            let pair = desk.pair.join(&letter.pair);
            let register = Register {
                tag: Tag { stamp: 1, desk: 1 },
                value: value.clone(),
            };
            desk.choose(operation, pair, register)
        }
        _ => desk.marked(operation, letter, quorum),
    }
});

/// A majority of the servers is a quorum, whatever they weigh.
pub const HEAD_COUNT: Marking = Marking(|desk, config, mut operation, letter| {
    operation.answered |= 1 << letter.server;
    let heads = 2 * operation.answered.count_ones() as usize > config.n();
    desk.marked(operation, letter, heads)
});

/// Exactly half of the weight is a quorum.
pub const HALF: Marking = Marking(|desk, config, mut operation, letter| {
    operation.answered |= 1 << letter.server;
    let margin = desk.pair.sheet.margin(config, operation.answered);
    desk.marked(operation, letter, margin >= 0)
});

/// More than half of 1,000 for each server is a quorum, whatever they started
/// with.
pub const LEVEL_QUORUM: Marking = Marking(|desk, config, mut operation, letter| {
    operation.answered |= 1 << letter.server;
    let twice = desk.pair.sheet.margin(config, operation.answered) + config.total();
    let quorum = twice > i64::from(START) * config.n() as i64;
    desk.marked(operation, letter, quorum)
});

/// Every reply is late.
pub struct AllLate;

impl Calls<Transfers> for AllLate {
    fn hear(&self, _: &mut Cluster<Transfers>, _: u16, _: &Letter<Transfers>) -> Result<Heard, No> {
        Ok(Heard::Late)
    }
}

/// A server weighs as often as its replies were heard in the round.
#[derive(Default)]
pub struct CountedTwice {
    /// Of each desk: the round, and what its replies weigh so far.
    heard: RefCell<BTreeMap<u16, (u32, i64)>>,
}

impl Calls<Transfers> for CountedTwice {
    fn hear(
        &self,
        cluster: &mut Cluster<Transfers>,
        desk: u16,
        letter: &Letter<Transfers>,
    ) -> Result<Heard, No> {
        mark_with(cluster, desk, letter, |desk, config, mut operation| {
            let mut heard = self.heard.borrow_mut();
            let (round, weight) = heard.entry(desk.number).or_default();
            if *round != desk.round || operation.answered == 0 {
                (*round, *weight) = (desk.round, 0);
            }
            *weight += desk.pair.sheet.weight(config, letter.server.into());
            operation.answered |= 1 << letter.server;
            desk.marked(operation, letter, 2 * *weight > config.total())
        })
    }
}
