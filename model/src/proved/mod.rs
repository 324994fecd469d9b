//! The proved library, `libhost.a`, as include/tovridsa.h declares it. Here are
//! the answers about messages and blocks, the same four as in `answers`: paper
//! 01, the last paragraph of "Desk". `records` has what a host keeps, `servers`
//! and `desks` the calls on it. The functions have no precondition but pointers
//! that are valid, so every slice is fine and the wrappers are safe.

pub mod desks;
pub mod records;
pub mod servers;

extern "C" {
    fn tovridsa_check(
        n: u64,
        f: u64,
        starts: *const u64,
        starts_len: usize,
        msg: *const u8,
        len: usize,
    ) -> i64;
    fn tovridsa_weight(
        n: u64,
        f: u64,
        starts: *const u64,
        starts_len: usize,
        server: u64,
        msg: *const u8,
        len: usize,
    ) -> i64;
    fn tovridsa_quorum(
        n: u64,
        f: u64,
        starts: *const u64,
        starts_len: usize,
        map: u64,
        msg: *const u8,
        len: usize,
    ) -> i64;
    fn tovridsa_seats(block: *const u8, len: usize) -> i64;
}

/// 0 for a message that passes.
pub fn check(n: u64, f: u64, starts: &[u64], msg: &[u8]) -> i64 {
    let list = (start(starts), starts.len());
    // SAFETY: the pointers of slices are aligned and valid for reads of their
    // lengths, during the whole call; the function only reads what is there and
    // keeps no pointer. The numbers are passed by value and may be any.
    unsafe { tovridsa_check(n, f, list.0, list.1, msg.as_ptr(), msg.len()) }
}

/// The weight of a server by the message's sheet.
pub fn weight(n: u64, f: u64, starts: &[u64], server: u64, msg: &[u8]) -> i64 {
    let list = (start(starts), starts.len());
    // SAFETY: as in `check`; a server of n or more is refused by the function.
    unsafe { tovridsa_weight(n, f, list.0, list.1, server, msg.as_ptr(), msg.len()) }
}

/// The margin of the servers that the map names, by the message's sheet: twice
/// their weight, less W. Above 0 they are a quorum.
pub fn quorum(n: u64, f: u64, starts: &[u64], map: u64, msg: &[u8]) -> i64 {
    let list = (start(starts), starts.len());
    // SAFETY: as in `check`; a map bit of n or more is refused by the function.
    unsafe { tovridsa_quorum(n, f, list.0, list.1, map, msg.as_ptr(), msg.len()) }
}

/// The seats on offer in a block.
pub fn seats(block: &[u8]) -> i64 {
    // SAFETY: as in `check`, with the block for the message; a block that is
    // too long is refused by the function.
    unsafe { tovridsa_seats(block.as_ptr(), block.len()) }
}

/// The pointer to what a slice has. Of an empty slice it is null, which a host
/// may pass beside the length 0.
fn start<T>(slice: &[T]) -> *const T {
    match slice {
        [] => std::ptr::null(),
        _ => slice.as_ptr(),
    }
}

/// The same of bytes that may be written.
fn start_mut(bytes: &mut [u8]) -> *mut u8 {
    match bytes {
        [] => std::ptr::null_mut(),
        _ => bytes.as_mut_ptr(),
    }
}
