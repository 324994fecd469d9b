//! The lines of a script as the program reads them: docs/SCRIPTS.md, "A line".
//! Words stand apart by spaces, tabs or carriage returns, and `#` starts a
//! comment. What cannot be read is answered `what`.

use super::command::{Command, House};
use super::desk::Task;
use super::server::Room;

/// A line that cannot be read.
#[derive(Clone, Copy, Debug, PartialEq, Eq)]
pub struct Unreadable;

type Readable<T> = Result<T, Unreadable>;

/// The command of a line, `None` if it has no word.
pub fn parse(text: &str) -> Readable<Option<Command<Vec<u8>>>> {
    let front = text.split('#').next().unwrap_or("");
    let words = front
        .split([' ', '\t', '\r'])
        .filter(|word| !word.is_empty());
    let mut words = Words {
        rest: words.collect(),
    };
    if words.rest.is_empty() {
        return Ok(None);
    }
    let command = words.command()?;
    match words.rest[..] {
        [] => Ok(Some(command)),
        _ => Err(Unreadable),
    }
}

/// The bytes of pairs of hex digits, given as words of whole pairs.
pub fn unhex(words: &[&str]) -> Readable<Vec<u8>> {
    match words {
        [] => Err(Unreadable),
        ["-"] => Ok(Vec::new()),
        _ => {
            let mut bytes = Vec::new();
            for word in words {
                bytes.extend(pairs(word.as_bytes())?);
            }
            Ok(bytes)
        }
    }
}

fn pairs(digits: &[u8]) -> Readable<Vec<u8>> {
    let digit = |byte: u8| (byte as char).to_digit(16).ok_or(Unreadable);
    if digits.len() % 2 == 1 {
        return Err(Unreadable);
    }
    let pairs = digits.chunks(2);
    pairs
        .map(|pair| Ok((digit(pair[0])? * 16 + digit(pair[1])?) as u8))
        .collect()
}

/// Decimal digits, for a number up to the most.
fn fitting(word: &str, most: u64) -> Readable<u64> {
    if !word.bytes().all(|byte| byte.is_ascii_digit()) {
        return Err(Unreadable);
    }
    match word.parse() {
        Ok(number) if number <= most => Ok(number),
        _ => Err(Unreadable),
    }
}

/// Numbers apart by commas, `-` for none.
fn numbers(word: &str) -> Readable<Vec<u64>> {
    match word {
        "-" => Ok(Vec::new()),
        _ => word
            .split(',')
            .map(|word| fitting(word, u64::MAX))
            .collect(),
    }
}

/// The words not read yet.
struct Words<'a> {
    rest: Vec<&'a str>,
}

impl<'a> Words<'a> {
    fn command(&mut self) -> Readable<Command<Vec<u8>>> {
        Ok(match self.word()? {
            "house" => Command::House {
                house: self.house()?,
            },
            "begin" => {
                let desk = self.number()?;
                let write = match self.word()? {
                    "read" => false,
                    "write" => true,
                    _ => return Err(Unreadable),
                };
                let note = self.fitting(u32::MAX.into())? as u32;
                let task = match write {
                    false => Task::Read,
                    true => Task::Write(self.bytes()?.into()),
                };
                Command::Begin { desk, task, note }
            }
            "ask" => Command::Ask {
                desk: self.number()?,
                server: self.number()?,
                room: self.room()?,
            },
            "share" => Command::Share {
                server: self.number()?,
                room: self.room()?,
            },
            "serve" => Command::Serve {
                server: self.number()?,
                room: self.room()?,
                message: self.bytes()?,
            },
            "hear" => Command::Hear {
                desk: self.number()?,
                message: self.bytes()?,
            },
            "result" => Command::Result {
                desk: self.number()?,
            },
            "drop" => Command::Drop {
                desk: self.number()?,
            },
            "margin" => Command::Margin {
                desk: self.number()?,
            },
            "transfer" => Command::Transfer {
                giver: self.number()?,
                taker: self.number()?,
                amount: self.number()?,
            },
            "crash" => Command::Crash {
                server: self.number()?,
            },
            "check" => Command::Check {
                bytes: self.bytes()?,
            },
            "weight" => Command::Weight {
                server: self.number()?,
                bytes: self.bytes()?,
            },
            "quorum" => Command::Quorum {
                map: self.number()?,
                bytes: self.bytes()?,
            },
            "seats" => Command::Seats {
                bytes: self.bytes()?,
            },
            "named" => Command::Named {
                map: self.fitting(u16::MAX.into())? as u16,
            },
            "value" => Command::Value {
                bytes: self.bytes()?,
            },
            "message" => Command::Message {
                house: self.house()?,
                bytes: self.bytes()?,
            },
            "record" => match self.word()? {
                "server" => Command::RecordServer {
                    server: self.number()?,
                },
                "desk" => Command::RecordDesk {
                    desk: self.number()?,
                },
                _ => return Err(Unreadable),
            },
            _ => return Err(Unreadable),
        })
    }

    fn word(&mut self) -> Readable<&'a str> {
        if self.rest.is_empty() {
            return Err(Unreadable);
        }
        Ok(self.rest.remove(0))
    }

    fn number(&mut self) -> Readable<u64> {
        self.fitting(u64::MAX)
    }

    fn fitting(&mut self, most: u64) -> Readable<u64> {
        fitting(self.word()?, most)
    }

    /// n and f, and the list of start weights where the word `starts` stands.
    fn house(&mut self) -> Readable<House> {
        let (n, f) = (self.number()?, self.number()?);
        let starts = match self.rest.first() {
            Some(&"starts") => {
                self.word()?;
                Some(numbers(self.word()?)?)
            }
            _ => None,
        };
        Ok(House { n, f, starts })
    }

    fn room(&mut self) -> Readable<Room> {
        Ok(Room {
            at: self.number()?,
            len: self.number()?,
        })
    }

    /// The rest of the line.
    fn bytes(&mut self) -> Readable<Vec<u8>> {
        unhex(&std::mem::take(&mut self.rest))
    }
}

#[cfg(test)]
mod tests {
    use super::*;

    #[test]
    fn lines_that_can_be_read() {
        let hear = Command::Hear {
            desk: 7,
            message: vec![0x0A, 0xFF],
        };
        for text in ["hear 7 0AFF", "\thear  007 0a fF\r", "hear 7 0AFF# x"] {
            assert_eq!(parse(text), Ok(Some(hear.clone())), "{text}");
        }
        for text in ["", "  \t\r", "# hear 7", "   #"] {
            assert_eq!(parse(text), Ok(None), "{text}");
        }
        assert_eq!(
            parse("seats -"),
            Ok(Some(Command::Seats { bytes: Vec::new() }))
        );
        for (text, starts) in [
            ("house 2 0", None),
            ("house 2 0 starts -", Some(vec![])),
            ("house 2 0 starts 7", Some(vec![7])),
            ("house 2 0\tstarts 0299,00 # ,", Some(vec![299, 0])),
            (
                "house 2 0 starts 18446744073709551615,1,1",
                Some(vec![u64::MAX, 1, 1]),
            ),
        ] {
            let (n, f) = (2, 0);
            let house = House { n, f, starts };
            assert_eq!(parse(text), Ok(Some(Command::House { house })), "{text}");
        }
        let message = Command::Message {
            house: House::with_starts(1, 0, vec![16_000]),
            bytes: vec![0, 3],
        };
        assert_eq!(parse("message 1 0 starts 16000 00 03"), Ok(Some(message)));
    }

    #[test]
    fn lines_that_cannot() {
        for text in [
            "hear 7",
            "hear 7 0",
            "hear 7 0 0",
            "hear 7 - 00",
            "hear -7 00",
            "drop 1 2",
            "drop +1",
            "margin",
            "margin 1 2",
            "margin -1",
            "Drop 1",
            "drop 18446744073709551616",
            "begin 1 read 4294967296",
            "begin 1 write 0",
            "named 65536",
            "record cell 1",
            "house 2 0 1000",
            "house 2 0 starts",
            "house 2 0 start 1000,1000",
            "house 2 starts 1000,1000",
            "house 2 0 starts 1000 1000",
            "house 2 0 starts 1000, 1000",
            "house 2 0 starts ,1000",
            "house 2 0 starts 1000,,1000",
            "house 2 0 starts 1000,-",
            "house 2 0 starts 18446744073709551616",
            "message 2 0 starts 1000,1000",
            "message 2 0 00 starts 1000,1000",
        ] {
            assert_eq!(parse(text), Err(Unreadable), "{text}");
        }
    }
}
