//! The operations of a run as they can be seen from outside, and the clauses
//! about them: paper 01, "The runs of demand 3", last paragraph. Order: if A
//! ended before B began, B's tag is not below A's, and above it if B writes.
//! Values: what a read has is the start or what exactly one write was given.
//! Restarts: those reported are those made, and at most the gain.

use std::collections::BTreeMap;

use super::observer::Clause;
use super::seen::{Mode, ShownDesk, Told};
use crate::machine::register::Tag;
use crate::weights::{Ledger, MOST};

/// A breach of a clause, in words.
pub type Breach = (Clause, String);

#[derive(Clone, Debug)]
pub struct Operation {
    pub desk: u16,
    /// What a write was given.
    pub writes: Option<Vec<u8>>,
    /// The highest tag of the operations that had ended when it began.
    floor: Option<Tag>,
    /// What phase 1 chose.
    pub chosen: Option<(Tag, Vec<u8>)>,
    pub ended: bool,
    /// It may have chosen without that a record was shown afterwards.
    unseen: bool,
    /// The restarts made, and the transfers first brought by them.
    made: u64,
    gain: u64,
}

/// What is known of one desk.
#[derive(Clone, Debug, Default)]
struct Past {
    /// Its last operation, and whether that still runs.
    last: Option<usize>,
    running: bool,
    /// Whether it heard something since its record was shown.
    unshown: bool,
    /// The largest count that its hears brought, for each giver.
    brought: [u16; MOST],
}

/// All operations of a cluster, in the order in which they began.
#[derive(Clone, Debug, Default)]
pub struct Operations {
    list: Vec<Operation>,
    desks: BTreeMap<u16, Past>,
    highest_ended: Option<Tag>,
}

impl Operations {
    /// An accepted begin.
    pub fn begin(&mut self, desk: u16, writes: Option<Vec<u8>>) {
        self.leave(desk);
        let past = self.desks.entry(desk).or_default();
        past.last = Some(self.list.len());
        past.running = true;
        self.list.push(Operation {
            desk,
            writes,
            floor: self.highest_ended,
            chosen: None,
            ended: false,
            unseen: false,
            made: 0,
            gain: 0,
        });
    }

    /// An accepted drop.
    pub fn drop(&mut self, desk: u16) {
        self.leave(desk);
        self.desks.entry(desk).or_default().running = false;
    }

    /// The desk's operation is left; what it chose last was perhaps not seen.
    fn leave(&mut self, desk: u16) {
        let past = self.desks.entry(desk).or_default();
        if let (Some(last), true) = (past.last, past.unshown) {
            self.list[last].unseen |= self.list[last].chosen.is_none();
        }
        past.unshown = false;
    }

    /// A hear that was neither refused nor late, and the reply's sheet.
    pub fn hear(&mut self, desk: u16, sheet: &Ledger) {
        let past = self.desks.entry(desk).or_default();
        past.unshown = true;
        let mut new = 0;
        for (brought, &count) in past.brought.iter_mut().zip(&sheet.counts) {
            new += u64::from(count.saturating_sub(*brought));
            *brought = count.max(*brought);
        }
        if let (Some(last), true, true) = (past.last, past.running, new > 0) {
            self.list[last].made += 1;
            self.list[last].gain += new;
        }
    }

    /// A desk's record as it was shown.
    pub fn show(&mut self, desk: u16, shown: &ShownDesk) -> Vec<Breach> {
        let past = self.desks.entry(desk).or_default();
        past.unshown = false;
        let (Some(last), true) = (past.last, past.running) else {
            return Vec::new();
        };
        let operation = &mut self.list[last];
        let has_tag = shown.phase == 2 || shown.mode == Mode::Ended;
        let mut breaches = Vec::new();
        if has_tag && operation.chosen.is_none() {
            operation.chosen = Some((shown.chosen, shown.chosen_value.clone()));
            breaches.extend(in_order(operation, shown.chosen));
        }
        if shown.mode == Mode::Ended {
            past.running = false;
            operation.ended = true;
            self.highest_ended = self.highest_ended.max(Some(shown.chosen));
        }
        breaches
    }

    /// A result that was given.
    pub fn told(&mut self, desk: u16, told: &Told) -> Vec<Breach> {
        let last = self.desks.get(&desk).and_then(|past| past.last);
        let Some(operation) = last.map(|last| &self.list[last]) else {
            let words = format!("desk {desk} has a result and had no operation");
            return vec![(Clause::Values, words)];
        };
        let mut breaches = Vec::new();
        let Operation { made, gain, .. } = *operation;
        if told.restarts != made || made > gain {
            let words = format!(
                "desk {desk} reports {} restarts, {made} were made, with a gain of {gain}",
                told.restarts
            );
            breaches.push((Clause::Restarts, words));
        }
        if told.write != operation.writes.is_some() {
            let words = format!("desk {desk} has the result of another kind of operation");
            breaches.push((Clause::Values, words));
        }
        let same = |(tag, value): &(Tag, Vec<u8>)| *tag == told.tag && *value == told.value;
        if operation
            .chosen
            .as_ref()
            .is_some_and(|chosen| !same(chosen))
        {
            let words = format!("desk {desk} has another register as result than it chose");
            breaches.push((Clause::Values, words));
        }
        breaches
    }

    /// The clause of values, over the whole list. A tag that no write was seen
    /// to have is no breach where what some write chose was not shown.
    pub fn values(&self) -> Option<Breach> {
        let unshown = self.desks.values().any(|past| past.unshown);
        let unseen = unshown || self.list.iter().any(|one| one.unseen);
        let mut writes: BTreeMap<Tag, Vec<&[u8]>> = BTreeMap::new();
        for operation in &self.list {
            if let (Some((tag, _)), Some(value)) = (&operation.chosen, &operation.writes) {
                writes.entry(*tag).or_default().push(value);
            }
        }
        let reads = self.list.iter().filter(|one| one.writes.is_none());
        for read in reads {
            let Some((tag, value)) = &read.chosen else {
                continue;
            };
            let given = writes.get(tag).map_or(&[][..], |given| given);
            let lawful = match given {
                [] => unseen || *tag == Tag::default() && value.is_empty(),
                [given] => *tag != Tag::default() && (value == given || !read.ended),
                _ => false,
            };
            if !lawful {
                let words = format!(
                    "a read of desk {} has the tag ({}, {}) of {} writes, or another value",
                    read.desk,
                    tag.stamp,
                    tag.desk,
                    given.len()
                );
                return Some((Clause::Values, words));
            }
        }
        None
    }

    pub fn list(&self) -> &[Operation] {
        &self.list
    }
}

/// The clause of order, for an operation that has just got its tag.
fn in_order(operation: &Operation, tag: Tag) -> Option<Breach> {
    let floor = operation.floor?;
    let lawful = match operation.writes {
        None => tag >= floor,
        Some(_) => tag > floor,
    };
    let words = format!(
        "desk {} chose the tag ({}, {}), and one that ended before it began has ({}, {})",
        operation.desk, tag.stamp, tag.desk, floor.stamp, floor.desk
    );
    (!lawful).then_some((Clause::Order, words))
}
