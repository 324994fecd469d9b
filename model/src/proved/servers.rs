//! The calls on servers: include/tovridsa.h, "servers".

use super::records::{ServeAnswer, Server, ServerAnswer};
use super::{start, start_mut};

extern "C" {
    fn tovridsa_open_server(
        n: u64,
        f: u64,
        number: u64,
        starts: *const u64,
        starts_len: usize,
    ) -> ServerAnswer;
    fn tovridsa_transfer(server: Server, taker: u64, amount: u64) -> ServerAnswer;
    fn tovridsa_share(server: Server, out: *mut u8, len: usize, at: usize) -> i64;
    fn tovridsa_serve(
        server: Server,
        msg: *const u8,
        msg_len: usize,
        out: *mut u8,
        out_len: usize,
        at: usize,
    ) -> ServeAnswer;
}

/// A fresh record.
pub fn open(n: u64, f: u64, number: u64, starts: &[u64]) -> ServerAnswer {
    // SAFETY: numbers are passed by value and may be any; the list's pointer is
    // aligned and valid for reads of its length, during the whole call; the
    // function only reads those numbers and keeps no pointer. The record that is
    // handed back is of plain numbers, for which any bits are fine.
    unsafe { tovridsa_open_server(n, f, number, start(starts), starts.len()) }
}

/// Gives a taker weight.
pub fn transfer(server: Server, taker: u64, amount: u64) -> ServerAnswer {
    // SAFETY: as in `open`; the record is passed by value, and the function
    // tests it, whatever bits it has.
    unsafe { tovridsa_transfer(server, taker, amount) }
}

/// Writes a share: the place after it.
pub fn share(server: Server, out: &mut [u8], at: usize) -> i64 {
    let len = out.len();
    // SAFETY: as in `transfer`; the pointer is valid for reads and writes of its
    // length, during the whole call, and nobody else has those bytes, since the
    // slice is borrowed as the only one. The function keeps no pointer. The
    // place may be any: the function writes within the length only.
    unsafe { tovridsa_share(server, start_mut(out), len, at) }
}

/// Takes a request or a share, and writes the reply to a request.
pub fn serve(server: Server, msg: &[u8], out: &mut [u8], at: usize) -> ServeAnswer {
    let len = out.len();
    // SAFETY: as in `share`; the message's pointer is valid for reads of its
    // length, during the whole call, and no byte of it is one of the buffer,
    // since one slice is borrowed to be read and the other to be written.
    unsafe { tovridsa_serve(server, start(msg), msg.len(), start_mut(out), len, at) }
}
