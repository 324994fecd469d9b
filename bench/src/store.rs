//! Servers and desks behind one row of calls, so that each implementation is driven in the same way. Answers are those of include/tovridsa.h.

use crate::records::ResultAnswer;
use model::weights::Config;

pub trait Store: Clone + 'static {
    type Server: Clone;
    type Desk: Clone;

    fn open_server(&self, config: Config, number: u64) -> Self::Server;
    fn transfer(&self, server: &mut Self::Server, taker: u64, amount: u64) -> i64;
    fn share(&self, server: &Self::Server, out: &mut [u8], at: usize) -> i64;

    /// The answer, and the place after the reply.
    fn serve(
        &self,
        server: &mut Self::Server,
        msg: &[u8],
        out: &mut [u8],
        at: usize,
    ) -> (i64, usize);

    fn open_desk(&self, config: Config, number: u64) -> Self::Desk;
    fn begin_read(&self, desk: &mut Self::Desk, note: u32) -> i64;
    fn begin_write(&self, desk: &mut Self::Desk, note: u32, value: &[u8]) -> i64;
    fn ask(&self, desk: &Self::Desk, server: u64, out: &mut [u8], at: usize) -> i64;
    fn hear(&self, desk: &mut Self::Desk, msg: &[u8]) -> i64;
    fn result(&self, desk: &Self::Desk) -> ResultAnswer;
    fn margin(&self, desk: &Self::Desk) -> i64;
    fn drop(&self, desk: &mut Self::Desk) -> i64;

    /// The desk's round.
    fn round(&self, desk: &Self::Desk) -> u32;

    /// Whether an operation has ended and its result is kept.
    fn ended(&self, desk: &Self::Desk) -> bool;
}
