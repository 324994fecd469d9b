//! The server of the long run to the end of a count, by itself: it gives 65,535
//! times, and is then refused with 12. The file is too long to be stored.

use super::drawn::line;
use super::line::Line;
use crate::machine::calls::Right;
use crate::machine::command::Command;
use crate::machine::program::Program;
use crate::runs::script::replay;
use crate::runs::spent::spent;
use crate::weights::Ledger;

/// The lines of server 0.
pub fn lines() -> Vec<Line> {
    let turns = replay(&spent(), &mut Program::<Ledger, _>::new(Right));
    let own = turns.iter().filter(|turn| match &turn.command {
        Command::House { .. } => true,
        command => command.server() == Some(0),
    });
    own.map(line).collect()
}
