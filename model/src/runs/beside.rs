//! The compiled program, or the library, beside a model: the same lines to both,
//! every answer compared, then a check on the store's answers alone. A run that
//! fails is given again and again to fresh stores to make it short.

use super::check::difference;
use super::observer::{Clause, Found};
use super::process::{converse, has_answer, Conversation};
use super::script::{replay, Entry, Turn};
use super::shrink::{script_text, shrink};
use super::store::Store;

/// One run in so many is a conversation, line by line.
const CONVERSATIONS: u64 = 16;

/// A model, how a store answers the same lines in a run of this number, and what
/// is checked besides the equality.
pub struct Beside {
    pub model: fn() -> Box<dyn Store>,
    pub answered: fn(&[Turn], u64) -> Vec<Turn>,
    pub check: fn(&[Turn]) -> Option<Found>,
}

impl Beside {
    /// The store's turns on the lines of a run that the model played, or a
    /// report with a short script. The run's number says how the lines are
    /// given.
    pub fn compare(
        &self,
        entries: &[Entry],
        expected: &[Turn],
        number: u64,
    ) -> Result<Vec<Turn>, String> {
        let turns = (self.answered)(expected, number);
        match self.failure(expected, &turns) {
            None => Ok(turns),
            Some(_) => Err(self.report(entries, number)),
        }
    }

    /// The first answer that differs, or what the check finds.
    fn failure(&self, expected: &[Turn], turns: &[Turn]) -> Option<Found> {
        let mut pairs = expected.iter().zip(turns);
        match pairs.find(|(expected, turn)| expected.answer != turn.answer) {
            None => (self.check)(turns),
            Some((expected, turn)) => Some(Found {
                clause: Clause::Equality,
                number: turn.number,
                words: difference(expected.answer.as_deref(), turn.answer.as_deref()),
            }),
        }
    }

    /// The run made short, as a script with comments. Lines that are given at
    /// once are tried first, since they never wait for an answer; a run that
    /// fails as a conversation only is not made short.
    fn report(&self, entries: &[Entry], number: u64) -> String {
        let play = |script: &[Entry], number: u64| {
            let expected = replay(script, (self.model)().as_mut());
            let turns = (self.answered)(&expected, number);
            let found = self.failure(&expected, &turns);
            (turns, found)
        };
        let clause = |script: &[Entry], number| play(script, number).1.map(|found| found.clause);
        let mut ways = [0, 1, number].into_iter();
        let Some((number, broken)) =
            ways.find_map(|number| Some((number, clause(entries, number)?)))
        else {
            return "the run did not fail a second time".to_string();
        };
        let script = match is_conversation(number) {
            true => entries.to_vec(),
            false => shrink(entries, &mut |script| {
                clause(script, number) == Some(broken)
            }),
        };
        match play(&script, number) {
            (turns, Some(found)) => {
                let text = script_text(&turns, found.number, &found.words);
                format!("{} is broken:\n{text}", found.clause)
            }
            (_, None) => "the short run did not fail a second time".to_string(),
        }
    }
}

fn is_conversation(number: u64) -> bool {
    number % CONVERSATIONS == CONVERSATIONS - 1
}

/// The same lines with the answers of a fresh process: given at once, with or
/// without an end to the last line, or now and then one by one.
pub fn answered(expected: &[Turn], number: u64) -> Vec<Turn> {
    let mut turns = expected.to_vec();
    if is_conversation(number) {
        let mut conversation = Conversation::start();
        for turn in &mut turns {
            turn.answer = conversation.answer(&turn.text, &turn.command);
        }
        return turns;
    }
    let mut text = String::new();
    for turn in expected {
        text += &turn.text;
        text.push('\n');
    }
    if number % 2 == 1 {
        text.pop();
    }
    let mut answers = converse(text).into_iter();
    for turn in turns.iter_mut().filter(|turn| has_answer(&turn.text)) {
        turn.answer = Some(answers.next().unwrap_or("(no answer)".to_string()));
    }
    // What is left over belongs to no line; it is shown with the last.
    if let (Some(more), Some(last)) = (answers.next(), turns.last_mut()) {
        last.answer = Some(format!("{} and then {more}", last.answer()));
    }
    turns
}
