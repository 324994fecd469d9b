//! Questions put in between in a run: how far a desk's operation is from a
//! quorum, and how far some servers are by the sheet of a message (paper 02,
//! N1). Nothing changes by them, and they are no steps. They are drawn apart from
//! all else, so that a run without them is the same run.

use std::collections::BTreeSet;

use super::player::Player;
use super::script::Turn;
use crate::machine::command::Command;
use crate::random::Random;

/// The seed of the questions.
const SEED: u64 = 2;

/// Numbers that no desk has, some of which are one's when they are cut.
const NOBODY: [u64; 5] = [0, 65_536, 65_537, (1 << 32) + 1, u64::MAX];

/// The questions of a run.
pub struct Asides {
    pub random: Random,
    /// The lines that they are.
    pub lines: BTreeSet<usize>,
}

impl Asides {
    /// Those of the run that is drawn by a generator, which is left as it is.
    pub fn of_run(random: &Random) -> Asides {
        Asides {
            random: Random::of_case(SEED, random.clone().word()),
            lines: BTreeSet::new(),
        }
    }
}

impl Player<'_> {
    /// The lines so far, from the latest on, without those questions.
    pub fn latest(&self) -> impl Iterator<Item = &Turn> {
        let asides = &self.asides.lines;
        let turns = self.turns.iter().rev();
        turns.filter(|turn| !asides.contains(&turn.number))
    }

    /// Now and then something is asked.
    pub fn aside(&mut self) {
        if self.asides.random.one_in(5) {
            let command = match self.asides.random.below(16) {
                0 => self.of_half(),
                _ => self.of_desk(),
            };
            self.give_aside(command);
        }
    }

    /// The margin of a desk: most often of the one that the line before names,
    /// else of any, and where there is misuse of one that there is not.
    fn of_desk<M>(&mut self) -> Command<M> {
        let named = self.latest().next().and_then(|turn| turn.command.desk());
        let random = &mut self.asides.random;
        let desk = match (random.below(16), named) {
            (0, _) if self.pace.misuses > 0 => *random.pick(&NOBODY),
            (1..=13, Some(desk)) => desk,
            _ => *random.pick(&self.pace.desks),
        };
        Command::Margin { desk }
    }

    /// The margin of every other server, by the latest message that was sent.
    fn of_half<M>(&mut self) -> Command<M> {
        let sent = self.latest().find_map(|turn| turn.sent());
        let bytes = sent.unwrap_or_default();
        let all = (1 << self.known.n()) - 1;
        let map = self.asides.random.pick(&[0x5555, 0xAAAA]) & all;
        Command::Quorum { map, bytes }
    }
}
