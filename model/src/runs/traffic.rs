//! What happens next in a run. Here: messages arrive, late, twice, out of order
//! or not at all, servers crash, operations are dropped.

use super::known::Post;
use super::player::Player;
use crate::format::Kind;
use crate::machine::command::Command;

/// The most messages that are on their way at once; the eldest is lost.
const MOST_FLYING: usize = 48;

impl Player<'_> {
    /// The next thing that happens.
    pub fn happen(&mut self) {
        let pace = &self.pace;
        self.choices += 1;
        let calm = self.choices.checked_div(pace.calm).unwrap_or(0) % 2 == 1;
        // Phase 2 is where moving weight does harm, if it does any.
        let mut desks = self.known.desks.values();
        let in_second = desks.any(|desk| desk.running && desk.phase == 2);
        let rates = [
            pace.transfers * u64::from(!calm),
            pace.pours * u64::from(!calm) * if in_second { 4 } else { 1 },
            pace.shares,
            pace.losses,
            pace.crashes,
            pace.drops,
            pace.misuses,
            pace.helpers,
        ];
        let mut drawn = self.random.below(1_000);
        let mut chosen = rates.len();
        for (place, rate) in rates.into_iter().enumerate() {
            if drawn < rate {
                chosen = place;
                break;
            }
            drawn -= rate;
        }
        match chosen {
            0 => self.transfer(),
            1 => self.pour(),
            2 => self.share(),
            3 => self.lose(),
            4 => self.crash(),
            5 => self.drop(),
            6 => self.misuse(),
            7 => self.help(),
            _ => self.go_on(),
        }
    }

    /// Messages arrive, or desks work.
    fn go_on(&mut self) {
        while self.known.flying.len() > MOST_FLYING {
            self.known.flying.remove(0);
        }
        if !self.known.flying.is_empty() && !self.random.one_in(6) {
            self.arrive();
        } else {
            self.work();
        }
    }

    /// A message arrives.
    fn arrive(&mut self) {
        let place = self.next_arrival();
        let stays = self.chance(self.pace.doubles);
        let post = match stays {
            true => self.known.flying[place].clone(),
            false => self.known.flying.swap_remove(place),
        };
        match post.kind {
            Kind::Request => self.serve(post.server, post.line),
            Kind::Share => self.serve(post.to, post.line),
            Kind::Reply => self.hear(post.desk, post.line),
        }
    }

    /// Which message arrives next: one that is of use, if some draws find one,
    /// and of the slow server seldom.
    fn next_arrival(&mut self) -> usize {
        let mut place = 0;
        for _ in 0..4 {
            place = self.random.index(self.known.flying.len());
            let post = &self.known.flying[place];
            let slow = self.pace.slow == Some(post.server) && !self.random.one_in(8);
            if self.is_of_use(&self.known.flying[place]) && !slow {
                break;
            }
        }
        place
    }

    fn is_of_use(&self, post: &Post) -> bool {
        let desk = self.known.desks.get(&post.desk);
        let current = desk.is_some_and(|desk| desk.running && desk.round == post.round);
        match post.kind {
            Kind::Share => !self.known.crashed[post.to as usize],
            Kind::Request => current && !self.known.crashed[post.server as usize],
            Kind::Reply => current,
        }
    }

    fn lose(&mut self) {
        if !self.known.flying.is_empty() {
            let place = self.random.index(self.known.flying.len());
            self.known.flying.remove(place);
        }
    }

    /// A server crashes; seldom more than f, and seldom one a second time.
    fn crash(&mut self) {
        let crashed = self.known.config.n() - self.known.alive().len();
        let server = self.any_server();
        if crashed < self.known.config.f() || self.random.one_in(6) {
            self.give(Command::Crash { server });
        }
    }

    fn drop(&mut self) {
        let desk = self.any_desk();
        if self.known.is_running(desk) {
            self.give(Command::Drop { desk });
        }
    }
}
