//! A buffer that is lent to a call, with bytes around it, so that it is seen
//! when a call changes a byte that is not one of its message.

use super::{number, wrong};
use crate::machine::program::{Answer, Step};
use crate::machine::server::Room;

/// How many bytes lie before the buffer, and how many after it.
const AROUND: usize = 64;

pub struct Buffer {
    room: Room,
    bytes: Vec<u8>,
}

/// What lies at a place before the call.
fn filling(place: usize) -> u8 {
    (place * 37) as u8
}

impl Buffer {
    /// The room is within the program's bounds.
    pub fn new(room: Room) -> Buffer {
        let length = room.len as usize + 2 * AROUND;
        Buffer {
            room,
            bytes: (0..length).map(filling).collect(),
        }
    }

    /// The buffer, and the place from which on a call is to write.
    pub fn lent(&mut self) -> (&mut [u8], usize) {
        let end = self.bytes.len() - AROUND;
        let at = usize::try_from(self.room.at).expect("places have 64 bits");
        (&mut self.bytes[AROUND..end], at)
    }

    /// The answer of a call that gives the place after its message.
    pub fn wrote(&self, next: i64) -> Step<Answer> {
        match number(next) {
            Ok(next) => self.answer(Ok(Answer::Done), next),
            refused => self.answer(refused.map(|_| Answer::Done), self.room.at),
        }
    }

    /// The answer with the message that lies in the buffer, up to this end. No
    /// message ends where it was to begin, and then no byte may have changed.
    pub fn answer(&self, answer: Step<Answer>, end: u64) -> Step<Answer> {
        let Room { at, len } = self.room;
        let written = match end {
            end if end == at => 0..0,
            end if at < end && end <= len => AROUND + at as usize..AROUND + end as usize,
            _ => return Err(wrong(format!("a message from {at} up to {end}"))),
        };
        let mut bytes = self.bytes.iter().enumerate();
        if let Some((place, byte)) =
            bytes.find(|(place, byte)| !written.contains(place) && **byte != filling(*place))
        {
            let place = place as i64 - AROUND as i64;
            return Err(wrong(format!("{byte:02X} at place {place} of the buffer")));
        }
        match answer {
            Ok(_) if !written.is_empty() => Ok(Answer::Wrote {
                next: end,
                bytes: self.bytes[written].to_vec(),
            }),
            Err(_) if !written.is_empty() => Err(wrong("a refused call wrote a message")),
            answer => answer,
        }
    }
}
