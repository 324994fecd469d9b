//! How weight moves in a run: by little or by all that can be spared, from one
//! or from many to one, and how the others hear of it.

use super::known::Post;
use super::player::Player;
use crate::machine::command::Command;

impl Player<'_> {
    /// Weight moves, often as much as can be spared.
    pub fn transfer(&mut self) {
        let n = self.known.n();
        let alive = self.known.alive();
        if n < 2 || alive.is_empty() {
            return;
        }
        let giver = *self.random.pick(&alive);
        let taker = (giver + self.random.within(1, n - 1)) % n;
        let whole = self.chance(self.pace.whole);
        if whole {
            self.give(Command::RecordServer { server: giver });
        }
        let spare = self.known.spare(giver);
        let amount = match self.random.below(8) {
            _ if whole && spare > 0 => spare,
            0 => spare + 1,
            1..=3 => 1,
            _ => self.random.within(1, (spare / 2).max(1)),
        };
        let (answer, _) = self.give(Command::Transfer {
            giver,
            taker,
            amount,
        });
        if answer == "ok" {
            self.give(Command::RecordServer { server: giver });
            if self.pace.tells && !self.random.one_in(4) {
                self.share_of(giver, n);
            } else if self.random.one_in(2) {
                self.share_of(giver, 1);
            }
        }
    }

    /// Several servers give one all that they can spare, and tell it; the rest
    /// may hear of it later.
    pub fn pour(&mut self) {
        let alive = self.known.alive();
        if alive.len() < 2 {
            return;
        }
        let taker = *self.random.pick(&alive);
        for giver in alive {
            if giver == taker || self.random.one_in(4) {
                continue;
            }
            self.give(Command::RecordServer { server: giver });
            let amount = self.known.spare(giver);
            if amount == 0 {
                continue;
            }
            self.give(Command::Transfer {
                giver,
                taker,
                amount,
            });
            let room = self.room();
            let (_, post) = self.give(Command::Share {
                server: giver,
                room,
            });
            if let Some(post) = post {
                self.serve(taker, post.line);
            }
        }
    }

    pub fn share(&mut self) {
        let alive = self.known.alive();
        if !alive.is_empty() {
            let server = *self.random.pick(&alive);
            let many = self.random.within(1, self.known.n());
            self.share_of(server, many);
        }
    }

    /// A share that goes to so many servers, now and then to its own sender.
    fn share_of(&mut self, server: u64, many: u64) {
        let room = self.room();
        let (_, post) = self.give(Command::Share { server, room });
        let Some(post) = post else { return };
        let n = self.known.n();
        let first = self.random.below(n);
        for step in 0..many {
            let to = (first + step) % n;
            if to != server || self.random.one_in(4) {
                self.known.flying.push(Post { to, ..post.clone() });
            }
        }
    }
}
