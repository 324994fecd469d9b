//! How often a run reaches what it is meant to reach, by the lines and the
//! answers: each number a call can give in a run, each kind of restart, results
//! by their restarts, and the program's own answers.

use std::collections::{BTreeMap, BTreeSet};

use super::fate::Fates;
use super::script::Turn;
use super::seen::{margin, refused, shown, told, Mode};
use crate::answers::refusal;
use crate::format::{read, Kind};
use crate::machine::command::{Command, House};
use crate::machine::desk::Task;
use crate::weights::Config;

/// What a desk was at when it was last seen.
#[derive(Clone, Copy, Default)]
struct Activity {
    running: bool,
    ended: bool,
    restarts: u64,
}

#[derive(Default)]
pub struct Tally {
    counts: BTreeMap<String, u64>,
    pub pairs: BTreeSet<(u64, u64)>,
    config: Option<Config>,
    desks: BTreeMap<u64, Activity>,
    crashed: BTreeSet<u64>,
    heard: BTreeSet<(u64, usize)>,
    messages: Fates,
    /// The server whose record the line before showed, and its weight there.
    weighed: Option<(u64, i64)>,
}

impl Tally {
    /// Forgets the cluster: the next run has its own.
    pub fn next_run(&mut self) {
        self.config = None;
        self.close();
    }

    /// What was not given to anybody until now is lost.
    fn close(&mut self) {
        for words in self.messages.close() {
            self.reach(words);
        }
    }

    pub fn count(&self, words: &str) -> u64 {
        self.counts.get(words).copied().unwrap_or(0)
    }

    /// Every count with its words.
    pub fn lines(&self) -> Vec<String> {
        let lines = self.counts.iter();
        lines
            .map(|(words, times)| format!("{times:>9}  {words}"))
            .collect()
    }

    fn reach(&mut self, words: impl Into<String>) {
        *self.counts.entry(words.into()).or_default() += 1;
    }

    fn reach_if(&mut self, reached: bool, words: &str) {
        if reached {
            self.reach(words);
        }
    }

    pub fn see(&mut self, turn: &Turn) {
        let answer = turn.answer();
        let plain = turn.command.line(|message| &message.bytes);
        self.reach_if(turn.text != plain, "line: written in another way");
        match answer {
            "" => return self.reach("line: without a word"),
            "what" => return self.reach("line: what"),
            "bounds" => return self.see_bounds(turn),
            "crashed" => return self.reach("line: crashed"),
            _ => {}
        }
        if let Command::House { house } = &turn.command {
            if answer == "ok" {
                self.reach_if(self.config.is_some(), "house: another after the first");
                self.open(house);
            } else {
                self.reach(format!("house: {answer}"));
            }
            return;
        }
        let Some(config) = self.config else {
            return self.reach_if(answer == "no 1", "line: no 1 before a house");
        };
        if turn.command.takes_message_alone() {
            return self.see_alone(turn);
        }
        self.see_parties(turn, config);
        if answer != "no 1" {
            self.see_step(turn, config);
        }
        self.weighed = match turn.command {
            Command::RecordServer { server } => {
                shown(answer).map(|shown| (server, shown.weights[server as usize]))
            }
            _ => None,
        };
    }

    /// A call that takes a message alone.
    fn see_alone(&mut self, turn: &Turn) {
        let number = turn.answer().parse::<i64>().ok();
        let is_code = number.is_some_and(|number| number <= refusal(1));
        let is_refused = is_code || refused(turn.answer()).is_some();
        let end = if is_refused { "refused" } else { "accepted" };
        let line = turn.command.line(|message| &message.bytes);
        let call = line.split(' ').next().unwrap_or_default();
        self.reach(format!("{call}: {end}"));
        let is_message = matches!(turn.command, Command::Message { .. });
        self.reach_if(
            is_message && turn.answer() == "no 15",
            "message: refused by its list",
        );
        if let (Command::Quorum { .. }, Some(margin), false) = (&turn.command, number, is_refused) {
            self.reach(match margin.signum() {
                1 => "quorum: above 0",
                0 => "quorum: 0",
                _ => "quorum: below 0",
            });
        }
    }

    fn open(&mut self, house: &House) {
        self.pairs.insert((house.n, house.f));
        self.config = house.config().ok();
        if let Some(config) = self.config {
            self.reach(match (config.is_level(), &house.starts) {
                (true, None) => "house: level, without a list",
                (true, Some(_)) => "house: level, with a list",
                (false, _) => "house: uneven",
            });
            self.reach_if(config.total() == 16_000, "house: W is 16,000");
        }
        self.close();
        self.desks.clear();
        self.crashed.clear();
        self.heard.clear();
    }

    fn see_bounds(&mut self, turn: &Turn) {
        self.reach("line: bounds");
        let desk = turn.command.desk();
        let another = desk.is_some_and(|desk| !self.desks.contains_key(&desk));
        self.reach_if(
            another && self.desks.len() == 16,
            "line: bounds, a 17th desk",
        );
    }

    /// Who is named, and the program's answer if there is no such party.
    fn see_parties(&mut self, turn: &Turn, config: Config) {
        let is_no_1 = turn.answer() == "no 1";
        let server = turn.command.server();
        if server.is_some_and(|server| server >= config.n() as u64) && is_no_1 {
            self.reach("line: no 1 for a server");
        }
        match turn.command.desk() {
            Some(desk @ 1..=65_535) => {
                self.desks.entry(desk).or_default();
                self.reach_if(desk == 1, "desk 1");
                self.reach_if(desk == 65_535, "desk 65535");
                if is_no_1 {
                    self.reach("ask: no 1");
                }
            }
            Some(_) => self.reach("line: no 1 for a desk"),
            None => {}
        }
    }

    fn see_step(&mut self, turn: &Turn, config: Config) {
        let answer = turn.answer();
        for words in self.messages.see(turn) {
            self.reach(words);
        }
        let no = refused(answer);
        match &turn.command {
            Command::Begin { desk, task, .. } => {
                self.reach_call("begin", no);
                if no.is_none() {
                    let begun = Activity {
                        running: true,
                        ..Activity::default()
                    };
                    self.desks.insert(*desk, begun);
                }
                if let (Task::Write(value), "ok") = (task, answer) {
                    self.reach_if(value.is_empty(), "write: value of 0 bytes");
                    self.reach_if(value.len() == 64, "write: value of 64 bytes");
                }
            }
            Command::Ask { .. } => self.reach_call("ask", no),
            Command::Share { .. } => self.reach_call("share", no),
            Command::Drop { desk } => {
                self.reach_call("drop", no);
                if no.is_none() {
                    self.desks.insert(*desk, Activity::default());
                }
            }
            Command::Result { .. } => {
                self.reach_call("result", no);
                if let Some(told) = told(answer) {
                    self.reach(format!("result: {} restarts", told.restarts));
                }
            }
            Command::Serve {
                server, message, ..
            } => self.see_serve(config, *server, &message.bytes, no),
            Command::Hear { desk, message } => {
                let again = message.place.map(|place| (*desk, place));
                let again = again.is_some_and(|heard| !self.heard.insert(heard));
                self.reach_if(again && answer == "ok", "hear: a message once more");
                self.see_hear(config, *desk, &message.bytes, answer);
            }
            &Command::Transfer {
                giver,
                taker,
                amount,
            } => match no {
                Some(11) if amount == 0 => self.reach("transfer: no 11 for nothing"),
                Some(11) if taker == giver => self.reach("transfer: no 11 for itself"),
                Some(11) => self.reach("transfer: no 11 for a taker of n or more"),
                _ => {
                    self.reach_call("transfer", no);
                    self.see_spare(config, giver, amount, no);
                }
            },
            Command::Crash { server } => {
                self.reach("crash: accepted");
                self.crashed.insert(*server);
                self.reach_if(self.crashed.len() > config.f(), "crash: more than f");
            }
            Command::RecordDesk { desk } => self.see_desk(*desk, answer),
            Command::Margin { desk } => self.see_margin(config, *desk, answer),
            _ => {}
        }
        if let (Some(bytes), Some(room)) = (turn.sent(), turn.command.room()) {
            self.reach_if(room.at > 0, "buffer: from a place above 0");
            let exact = room.at + bytes.len() as u64 == room.len;
            self.reach_if(exact, "buffer: of just the right size");
        }
    }

    /// A transfer at the edge of what the giver, just shown, can spare.
    fn see_spare(&mut self, config: Config, giver: u64, amount: u64, no: Option<u8>) {
        let weighed = self.weighed.filter(|(server, _)| *server == giver);
        let (Some((_, weight)), Ok(amount)) = (weighed, i64::try_from(amount)) else {
            return;
        };
        let edge = |rest: i64| config.above_floor(rest) && !config.above_floor(rest - 1);
        let words = if no.is_none() && edge(weight - amount) {
            "transfer: accepted, all that can be spared"
        } else if no == Some(10) && amount < weight && edge(weight - amount + 1) {
            "transfer: no 10, one more than can be spared"
        } else {
            return;
        };
        self.reach(words);
        if !config.is_level() {
            self.reach(format!("{words}, in an uneven house"));
        }
    }

    fn reach_call(&mut self, call: &str, no: Option<u8>) {
        match no {
            None => self.reach(format!("{call}: accepted")),
            Some(number) => self.reach(format!("{call}: no {number}")),
        }
    }

    fn see_serve(&mut self, config: Config, server: u64, bytes: &[u8], no: Option<u8>) {
        let message = read(config, bytes).ok();
        let kind = message.as_ref().map(|message| message.kind);
        match (no, kind) {
            (None, Some(Kind::Share)) => {
                self.reach("serve: accepted share");
                let own = message.is_some_and(|share| u64::from(share.server) == server);
                self.reach_if(own, "serve: accepted share of its own");
            }
            (None, _) => self.reach("serve: accepted request"),
            (Some(7), Some(Kind::Reply)) => self.reach("serve: no 7 for a reply"),
            (Some(7), _) => self.reach("serve: no 7 for another server's request"),
            (Some(number), _) => self.reach(format!("serve: no {number}")),
        }
    }

    fn see_hear(&mut self, config: Config, desk: u64, bytes: &[u8], answer: &str) {
        let kind = read(config, bytes).ok().map(|message| message.kind);
        let running = self.desks.get(&desk).is_some_and(|desk| desk.running);
        match (refused(answer), kind) {
            (None, _) if answer == "ok" => self.reach("hear: accepted"),
            (None, _) if running => self.reach("hear: late, another round"),
            (None, _) => self.reach("hear: late, no operation"),
            (Some(7), Some(Kind::Request)) => self.reach("hear: no 7 for a request"),
            (Some(7), Some(Kind::Share)) => self.reach("hear: no 7 for a share"),
            (Some(7), _) => self.reach("hear: no 7 for another desk's reply"),
            (Some(number), _) => self.reach(format!("hear: no {number}")),
        }
    }

    /// A desk's record: what changed since it was shown last.
    fn see_desk(&mut self, desk: u64, answer: &str) {
        let Some(now) = shown(answer).and_then(|shown| shown.desk) else {
            return;
        };
        let running = now.mode == Mode::Running;
        let restarts = now.restarts;
        let after = Activity {
            running,
            ended: now.mode == Mode::Ended,
            restarts,
        };
        let before = self.desks.insert(desk, after).unwrap_or_default();
        let kind = if now.write { "write" } else { "read" };
        if running && restarts > before.restarts {
            self.reach(format!("restart: {kind}, phase {}", now.phase));
        }
        if before.running && now.mode == Mode::Ended {
            self.reach(format!("ended: {kind}"));
        }
    }

    fn see_margin(&mut self, config: Config, desk: u64, answer: &str) {
        let ended = self.desks.get(&desk).is_some_and(|desk| desk.ended);
        let Some(margin) = margin(answer) else {
            return match ended {
                true => self.reach("margin: no 9, ended"),
                false => self.reach("margin: no 9, no operation"),
            };
        };
        self.reach("margin: accepted");
        self.reach_if(margin == -config.total(), "margin: nobody answered");
        self.reach_if(margin == 0, "margin: 0");
    }
}
