//! The calls on desks: include/tovridsa.h, "desks".

use super::records::{Desk, DeskAnswer, ResultAnswer};
use super::{start, start_mut};

extern "C" {
    fn tovridsa_open_desk(
        n: u64,
        f: u64,
        number: u64,
        starts: *const u64,
        starts_len: usize,
    ) -> DeskAnswer;
    fn tovridsa_begin_read(desk: Desk, note: u32) -> DeskAnswer;
    fn tovridsa_begin_write(desk: Desk, note: u32, value: *const u8, len: usize) -> DeskAnswer;
    fn tovridsa_ask(desk: Desk, server: u64, out: *mut u8, len: usize, at: usize) -> i64;
    fn tovridsa_hear(desk: Desk, msg: *const u8, len: usize) -> DeskAnswer;
    fn tovridsa_hear_lent(desk: *mut Desk, msg: *const u8, len: usize) -> i64;
    fn tovridsa_result(desk: Desk) -> ResultAnswer;
    fn tovridsa_margin(desk: Desk) -> i64;
    fn tovridsa_drop(desk: Desk) -> DeskAnswer;
}

/// A fresh record.
pub fn open(n: u64, f: u64, number: u64, starts: &[u64]) -> DeskAnswer {
    // SAFETY: numbers are passed by value and may be any; the list's pointer is
    // aligned and valid for reads of its length, during the whole call; the
    // function only reads those numbers and keeps no pointer. The record that is
    // handed back is of plain numbers, for which any bits are fine.
    unsafe { tovridsa_open_desk(n, f, number, start(starts), starts.len()) }
}

/// Begins a read.
pub fn begin_read(desk: Desk, note: u32) -> DeskAnswer {
    // SAFETY: as in `open`; the record is passed by value, and the function
    // tests it, whatever bits it has.
    unsafe { tovridsa_begin_read(desk, note) }
}

/// Begins a write.
pub fn begin_write(desk: Desk, note: u32, value: &[u8]) -> DeskAnswer {
    // SAFETY: as in `begin_read`; the pointer is valid for reads of its length,
    // during the whole call; the function only reads those bytes and keeps no
    // pointer.
    unsafe { tovridsa_begin_write(desk, note, start(value), value.len()) }
}

/// Writes a request to a server: the place after it.
pub fn ask(desk: Desk, server: u64, out: &mut [u8], at: usize) -> i64 {
    let len = out.len();
    // SAFETY: as in `begin_read`; the pointer is valid for reads and writes of
    // its length, during the whole call, and nobody else has those bytes, since
    // the slice is borrowed as the only one. The function keeps no pointer. The
    // place may be any: the function writes within the length only.
    unsafe { tovridsa_ask(desk, server, start_mut(out), len, at) }
}

/// Takes a reply.
pub fn hear(desk: Desk, msg: &[u8]) -> DeskAnswer {
    // SAFETY: as in `begin_write`, with the message for the value.
    unsafe { tovridsa_hear(desk, start(msg), msg.len()) }
}

/// Takes a reply, on a record that is lent.
pub fn hear_lent(desk: &mut Desk, msg: &[u8]) -> i64 {
    // SAFETY: as in `hear`; the record's pointer comes from a reference, so it
    // is aligned, not null and valid for reads and writes, and nobody else has
    // the record during the call, nor is a byte of it one of the message. The
    // function keeps no pointer, and any bits that it leaves are fine.
    unsafe { tovridsa_hear_lent(desk, start(msg), msg.len()) }
}

/// The result of the operation that ended.
pub fn result(desk: Desk) -> ResultAnswer {
    // SAFETY: as in `begin_read`.
    unsafe { tovridsa_result(desk) }
}

/// How far the operation that runs is from a quorum: the margin of the servers
/// that answered in this round.
pub fn margin(desk: Desk) -> i64 {
    // SAFETY: as in `begin_read`.
    unsafe { tovridsa_margin(desk) }
}

/// Ends the operation that runs.
pub fn drop(desk: Desk) -> DeskAnswer {
    // SAFETY: as in `begin_read`.
    unsafe { tovridsa_drop(desk) }
}
