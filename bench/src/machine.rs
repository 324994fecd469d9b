//! The model's servers and desks, over counts and cells, behind the same calls. The model hands over messages as fields: here they are read from bytes
//! before a call and written into the buffer after it. It has no record test, since its records cannot hold anything else than what its calls made.

use crate::records::{untold, value_of, Register, ResultAnswer};
use crate::store::Store;
use model::format::read;
use model::machine::desk::{Activity, Desk, Heard, Task};
use model::machine::letter::Letter;
use model::machine::number::No;
use model::machine::server::{Room, Server};
use model::weights::{Config, Ledger};

#[derive(Clone, Copy)]
pub struct Model;

#[derive(Clone)]
pub struct ModelServer {
    pub config: Config,
    pub server: Server<Ledger>,
}

#[derive(Clone)]
pub struct ModelDesk {
    pub config: Config,
    pub desk: Desk<Ledger>,
}

fn code(No(number): No) -> i64 {
    -1_000_000 - i64::from(number)
}

fn done(answer: Result<(), No>) -> i64 {
    answer.map_or_else(code, |()| 0)
}

fn open(config: Config, msg: &[u8]) -> Result<Letter<Ledger>, No> {
    match read(config, msg) {
        Ok(message) => Ok(Letter::from_message(&message)),
        Err(fault) => Err(No(fault.number)),
    }
}

fn room(out: &[u8], at: usize) -> Room {
    Room {
        at: at as u64,
        len: out.len() as u64,
    }
}

/// Writes a letter, for which there is room, and gives the place after it.
fn put(letter: &Letter<Ledger>, out: &mut [u8], at: usize) -> usize {
    let bytes = letter.bytes();
    let end = at + bytes.len();
    out[at..end].copy_from_slice(&bytes);
    end
}

fn sent(letter: Result<Letter<Ledger>, No>, out: &mut [u8], at: usize) -> i64 {
    letter.map_or_else(code, |letter| put(&letter, out, at) as i64)
}

impl Store for Model {
    type Server = ModelServer;
    type Desk = ModelDesk;

    fn open_server(&self, config: Config, number: u64) -> ModelServer {
        ModelServer {
            config,
            server: Server::fresh(number as usize),
        }
    }

    #[inline(never)]
    fn transfer(&self, server: &mut ModelServer, taker: u64, amount: u64) -> i64 {
        done(server.server.transfer(server.config, taker, amount))
    }

    #[inline(never)]
    fn share(&self, server: &ModelServer, out: &mut [u8], at: usize) -> i64 {
        sent(server.server.share(room(out, at)), out, at)
    }

    #[inline(never)]
    fn serve(
        &self,
        server: &mut ModelServer,
        msg: &[u8],
        out: &mut [u8],
        at: usize,
    ) -> (i64, usize) {
        let served = open(server.config, msg)
            .and_then(|letter| server.server.serve(server.config, &letter, room(out, at)));
        match served {
            Ok(Some(reply)) => (0, put(&reply, out, at)),
            Ok(None) => (0, at),
            Err(no) => (code(no), at),
        }
    }

    fn open_desk(&self, config: Config, number: u64) -> ModelDesk {
        ModelDesk {
            config,
            desk: Desk::fresh(number as u16),
        }
    }

    #[inline(never)]
    fn begin_read(&self, desk: &mut ModelDesk, note: u32) -> i64 {
        done(desk.desk.begin(Task::Read, note))
    }

    #[inline(never)]
    fn begin_write(&self, desk: &mut ModelDesk, note: u32, value: &[u8]) -> i64 {
        done(desk.desk.begin(Task::Write(value.into()), note))
    }

    #[inline(never)]
    fn ask(&self, desk: &ModelDesk, server: u64, out: &mut [u8], at: usize) -> i64 {
        sent(desk.desk.ask(desk.config, server, room(out, at)), out, at)
    }

    #[inline(never)]
    fn hear(&self, desk: &mut ModelDesk, msg: &[u8]) -> i64 {
        let heard = open(desk.config, msg).and_then(|letter| desk.desk.hear(desk.config, &letter));
        match heard {
            Ok(Heard::Taken) => 0,
            Ok(Heard::Late) => 1,
            Err(no) => code(no),
        }
    }

    #[inline(never)]
    fn result(&self, desk: &ModelDesk) -> ResultAnswer {
        match desk.desk.result() {
            Ok(outcome) => ResultAnswer {
                answer: 0,
                restarts: outcome.restarts,
                kind: if outcome.write { 2 } else { 1 },
                register: Register {
                    stamp: outcome.register.tag.stamp,
                    desk: outcome.register.tag.desk,
                    value: value_of(&outcome.register.value),
                },
            },
            Err(no) => untold(code(no)),
        }
    }

    #[inline(never)]
    fn margin(&self, desk: &ModelDesk) -> i64 {
        desk.desk.margin(desk.config).unwrap_or_else(code)
    }

    #[inline(never)]
    fn drop(&self, desk: &mut ModelDesk) -> i64 {
        done(desk.desk.drop())
    }

    fn round(&self, desk: &ModelDesk) -> u32 {
        desk.desk.round
    }

    fn ended(&self, desk: &ModelDesk) -> bool {
        matches!(desk.desk.activity, Activity::Ended(_))
    }
}
