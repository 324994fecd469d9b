//! What desks do in a run: they fetch results, begin, and ask servers, now and
//! then only some, so that operations go by different quorums.

use super::player::Player;
use crate::machine::command::Command;
use crate::machine::desk::Task;
use crate::weights::MOST;

impl Player<'_> {
    /// A desk fetches its result, begins, or asks.
    pub fn work(&mut self) {
        let at_work = self.known.at_work();
        let desk = if at_work.len() < self.pace.at_once {
            self.any_desk()
        } else {
            *self.random.pick(&at_work)
        };
        let known = self.known.desks.get(&desk).cloned().unwrap_or_default();
        if known.fresh_result && !self.random.one_in(8) {
            self.give(Command::Result { desk });
        } else if !known.running {
            self.begin(desk);
        } else {
            self.ask_some(desk);
        }
    }

    fn begin(&mut self, desk: u64) {
        let task = self.task();
        let note = match self.random.below(3) {
            0 => self.random.from_one(u32::MAX.into()) as u32,
            _ => 0,
        };
        self.give(Command::Begin { desk, task, note });
        let favours = self.favours();
        if let Some(known) = self.known.desks.get_mut(&desk) {
            known.favours = favours;
        }
        if self.known.is_running(desk) {
            self.ask_some(desk);
        }
    }

    pub fn task(&mut self) -> Task {
        if self.random.one_in(2) {
            return Task::Read;
        }
        let length = match self.random.below(8) {
            0 => 0,
            1 => 64,
            2 => self.random.below(65),
            _ => self.random.within(1, 4),
        };
        Task::Write(self.random.bytes(length as usize).into())
    }

    /// The servers that an operation goes by at first: all, some, or those
    /// above or below the weight that each had at the start.
    fn favours(&mut self) -> Vec<u64> {
        let n = self.known.n();
        let all: Vec<u64> = (0..n).collect();
        if !self.pace.narrow {
            return all;
        }
        if self.random.one_in(2) {
            let heavy = !self.random.one_in(3);
            let weights = &self.known.weights;
            let starts = self.known.config.start_weights();
            let heavier = |server: usize| weights[server] > starts[server];
            let fits = |server: &u64| heavier(*server as usize) == heavy;
            return all.into_iter().filter(fits).collect();
        }
        let map = self.random.word();
        let some: Vec<u64> = (0..n).filter(|server| map >> server & 1 == 1).collect();
        if some.is_empty() {
            all
        } else {
            some
        }
    }

    /// Asks servers that have not answered: first those that it favours, and
    /// all when that has led nowhere. One whose message of this round is on its
    /// way is asked again seldom.
    fn ask_some(&mut self, desk: u64) {
        let known = self.known.desks.get_mut(&desk).expect("it runs");
        known.tries += 1;
        let patient = known.tries < 24;
        let round = known.round;
        let fits = |server: &u64| !known.answered.contains(&(*server as usize));
        let mut servers: Vec<u64> = match patient {
            true => known.favours.iter().copied().filter(fits).collect(),
            false => (0..self.known.config.n() as u64).filter(fits).collect(),
        };
        let crashed = &self.known.crashed;
        let flying = &self.known.flying;
        servers.retain(|&server| {
            let pending = flying
                .iter()
                .any(|post| (post.desk, post.round, post.server) == (desk, round, server));
            !crashed[server as usize] && !pending || self.random.one_in(8)
        });
        let many = match self.random.below(4) {
            0 => 1,
            1 => 3,
            2 => self.known.config.n() / 2 + 1,
            _ => MOST,
        };
        for server in servers.into_iter().take(many) {
            let room = self.room();
            let (_, post) = self.give(Command::Ask { desk, server, room });
            self.known.flying.extend(post);
        }
    }
}
