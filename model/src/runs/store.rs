//! What a run drives: the compiled program, the library, the plain machine or a
//! wrong store.

use crate::machine::calls::Calls;
use crate::machine::command::Command;
use crate::machine::program::Program;
use crate::machine::sheet::{Handed, Sheet};

/// Something that answers lines.
pub trait Store {
    /// The answer to a line, given as text and as the command that it is;
    /// `None` for a line without a word.
    fn answer(&mut self, text: &str, command: &Command<Handed>) -> Option<String>;
}

impl<S: Sheet, C: Calls<S>> Store for Program<S, C> {
    fn answer(&mut self, text: &str, command: &Command<Handed>) -> Option<String> {
        let answer = Program::answer(self, text, command)?;
        Some(answer.to_string())
    }
}
