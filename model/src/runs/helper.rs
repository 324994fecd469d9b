//! Lines of a run that are no steps: the calls that take a message alone, lines
//! that cannot be read or are past the program's bounds, comments, and houses
//! that are refused. Nothing in the cluster may change by them.

use super::player::{Player, ROOMY};
use super::script::Source;
use crate::cases::Case;
use crate::machine::command::{Command, House};
use crate::machine::parse::parse;
use crate::machine::program::LONGEST_LINE;
use crate::machine::server::Room;
use crate::random::{bad_cluster, block, server_map};
use crate::starts::unlawful;

/// Lines that cannot be read.
const UNREADABLE: [&str; 36] = [
    "hello",
    "house",
    "house 5",
    "house 5 1 0",
    "house five 1",
    "house 5 -1",
    "house 18446744073709551616 0",
    "house 2 0 starts",
    "house 2 0 start 1000,1000",
    "house 2 0 starts 1000 1000",
    "house 2 0 starts 1000,",
    "house 2 0 starts 1000,,1000",
    "house 2 0 starts 1000,-",
    "house 2 0 starts 1000,18446744073709551616",
    "house 2 0 1000,1000",
    "message 2 0 starts 1000,1000",
    "message 2 0 0003 starts 1000,1000",
    "begin 1",
    "begin 1 sell 0",
    "begin 1 read",
    "begin 1 read 4294967296",
    "begin 1 write 0",
    "begin 1 write 0 0",
    "ask 1 0 0",
    "ask 1 0 0 0 0",
    "share 0x0 0 0",
    "serve 0 0 1111",
    "hear 1",
    "hear 1 0G",
    "hear 1 00 -",
    "named 65536",
    "record house 1",
    "RESULT 1",
    "result 1 ;",
    "margin",
    "margin 1 0",
];

/// Characters that mean something in a line, or nearly.
const CHARACTERS: [char; 19] = [
    ' ', '\t', '\r', '#', '-', '+', '.', ',', '0', '1', '9', 'A', 'a', 'F', 'G', 'x', 's', '~',
    '\'',
];

/// Lines without a word.
const WORDLESS: [&str; 5] = ["", "   ", "\t\r", "# begin 1 read 0", "  # - "];

impl Player<'_> {
    pub fn help(&mut self) {
        match self.random.below(9) {
            0 => {
                let line = *self.random.pick(&UNREADABLE);
                self.give(Command::Text(line.to_string()));
            }
            8 => self.mangled(),
            1 => {
                let line = *self.random.pick(&WORDLESS);
                self.give(Command::Text(line.to_string()));
            }
            2 => self.past_bounds(),
            3 => self.bad_house(),
            4 => self.show(),
            _ => self.of_message(),
        }
    }

    /// A house that is refused: by its numbers, whatever the list, or by its list.
    fn bad_house(&mut self) {
        let (n, f) = bad_cluster(&mut self.random);
        let house = match self.random.below(6) {
            0..=1 => House::level(n, f),
            2 => House::with_starts(n, f, self.known.config.starts()),
            _ => self.with_bad_list(),
        };
        self.give(Command::House { house });
    }

    /// The cluster that stands, with a list that is not lawful.
    fn with_bad_list(&mut self) -> House {
        let config = self.known.config;
        let (n, f) = (config.n() as u64, config.f() as u64);
        House::with_starts(n, f, unlawful(&mut self.random, n, f))
    }

    /// The calls that take a message alone, on one that was sent or on any.
    pub fn of_message(&mut self) {
        let case = Case::draw(self.random.word(), 0);
        let sent = self.latest().take(40).find_map(|turn| turn.sent());
        let bytes = match sent {
            Some(bytes) if !self.random.one_in(3) => bytes,
            _ => case.message,
        };
        let command = match self.random.below(7) {
            0 => Command::Check { bytes },
            1 => {
                let server = case.server;
                Command::Weight { server, bytes }
            }
            2 => {
                let map = server_map(&mut self.random, self.known.n());
                Command::Quorum { map, bytes }
            }
            3 => Command::Seats {
                bytes: block(&mut self.random),
            },
            4 => Command::Named {
                map: server_map(&mut self.random, self.known.n()) as u16,
            },
            5 => Command::Value { bytes },
            _ => {
                let house = match self.random.below(4) {
                    0 => House::level(case.n, case.f),
                    1 => self.with_bad_list(),
                    _ => House::with_starts(case.n, case.f, case.starts),
                };
                Command::Message { house, bytes }
            }
        };
        self.give(command);
    }

    /// A line of before with some characters changed, if nothing in the cluster
    /// can change by it: it cannot be read, or is a call that takes a message
    /// alone.
    fn mangled(&mut self) {
        let Some(turn) = self.turns.last() else {
            return;
        };
        let mut line: Vec<char> = turn.text.chars().take(200).collect();
        for _ in 0..self.random.within(1, 3) {
            let place = self.random.index(line.len() + 1);
            let character = *self.random.pick(&CHARACTERS);
            match self.random.below(3) {
                0 => line.insert(place, character),
                1 if place < line.len() => line[place] = character,
                _ if place < line.len() => {
                    line.remove(place);
                }
                _ => {}
            }
        }
        let line: String = line.into_iter().collect();
        let harmless = match parse(&line) {
            Ok(Some(command)) => command.takes_message_alone(),
            _ => true,
        };
        if harmless {
            self.give(Command::Text(line));
        }
    }

    /// `bounds`, and just within.
    fn past_bounds(&mut self) {
        let server = self.any_server();
        let length = LONGEST_LINE - self.random.index(2) + self.random.index(3);
        let desk = *self.known.desks.keys().next().unwrap_or(&1);
        let command: Command<Source> = match self.random.below(7) {
            0 => Command::Share {
                server,
                room: Room {
                    at: 0,
                    len: *self.random.pick(&[2_049, 4_096, u64::MAX]),
                },
            },
            1 => Command::Seats {
                bytes: self.random.bytes(2_049),
            },
            2 => Command::Value {
                bytes: self.random.bytes(2_048),
            },
            3 => Command::Text(filled("named 1 #", length)),
            4 => Command::Serve {
                server,
                room: ROOMY,
                message: Source::Bytes(self.random.bytes(2_049)),
            },
            5 => Command::Hear {
                desk,
                message: Source::Bytes(self.random.bytes(2_049)),
            },
            _ => Command::Text(filled("what is this ", length)),
        };
        self.give(command);
    }

    fn show(&mut self) {
        if self.random.one_in(2) {
            let server = self.any_server();
            self.give(Command::RecordServer { server });
        } else {
            let desk = self.any_desk();
            self.give(Command::RecordDesk { desk });
        }
    }
}

/// A line of so many characters.
fn filled(front: &str, length: usize) -> String {
    let mut line = front.to_string();
    line.extend(std::iter::repeat_n('x', length - front.len()));
    line
}
