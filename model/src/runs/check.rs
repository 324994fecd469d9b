//! The checks on a run that was played: equality with the plain machine, turn
//! by turn, and the observer's clauses.

use super::observer::{Found, Observer};
use super::script::Turn;
use super::store::Store;
use crate::machine::command::Command;

pub use super::observer::Clause;

/// The first turn at which an answer differs from the reference's, given the
/// same lines and the same places of messages.
pub fn unequal(turns: &[Turn], reference: &mut dyn Store) -> Option<Found> {
    for turn in turns {
        let expected = reference.answer(&turn.text, &turn.command);
        if expected != turn.answer {
            return Some(Found {
                clause: Clause::Equality,
                number: turn.number,
                words: difference(expected.as_deref(), turn.answer.as_deref()),
            });
        }
    }
    None
}

/// What was expected and what was answered, in words.
pub fn difference(expected: Option<&str>, answered: Option<&str>) -> String {
    let words = |answer: Option<&str>| answer.unwrap_or("no line").to_string();
    format!(
        "expected: {}\nanswered: {}",
        words(expected),
        words(answered)
    )
}

/// Whether the record of a desk is shown right after each reply that it takes:
/// then the clauses below see each choice and each end when it comes. It is so
/// in every run that was drawn, and need not be in one that was made short.
pub fn sees_all(turns: &[Turn]) -> bool {
    turns.iter().enumerate().all(|(place, turn)| {
        let Command::Hear { desk: hears, .. } = turn.command else {
            return true;
        };
        let next = turns.get(place + 1).map(|next| &next.command);
        let shown = matches!(next, Some(Command::RecordDesk { desk }) if *desk == hears);
        turn.answer() != "ok" || shown
    })
}

/// The clauses that the turns break, each where it is first seen.
pub fn broken(turns: &[Turn]) -> Vec<Found> {
    let mut observer = Observer::default();
    let mut all: Vec<Found> = Vec::new();
    let mut note = |found: Found| {
        if all.iter().all(|before| before.clause != found.clause) {
            all.push(found);
        }
    };
    for turn in turns {
        observer.see(turn).into_iter().for_each(&mut note);
    }
    observer.close().into_iter().for_each(&mut note);
    all
}
