//! plain.c, as safe functions with the signatures of the model's.

extern "C" {
    fn plain_check(
        n: u64,
        f: u64,
        starts: *const u64,
        starts_len: usize,
        msg: *const u8,
        len: usize,
    ) -> i64;
    fn plain_weight(
        n: u64,
        f: u64,
        starts: *const u64,
        starts_len: usize,
        server: u64,
        msg: *const u8,
        len: usize,
    ) -> i64;
    fn plain_quorum(
        n: u64,
        f: u64,
        starts: *const u64,
        starts_len: usize,
        map: u64,
        msg: *const u8,
        len: usize,
    ) -> i64;
    fn plain_seats(block: *const u8, len: usize) -> i64;
}

// Safety of all four: the C reads what the slices have, nothing else, writes none of it, and keeps no pointer.

pub fn check(n: u64, f: u64, starts: &[u64], msg: &[u8]) -> i64 {
    let list = (starts.as_ptr(), starts.len());
    unsafe { plain_check(n, f, list.0, list.1, msg.as_ptr(), msg.len()) }
}

pub fn weight(n: u64, f: u64, starts: &[u64], server: u64, msg: &[u8]) -> i64 {
    let list = (starts.as_ptr(), starts.len());
    unsafe { plain_weight(n, f, list.0, list.1, server, msg.as_ptr(), msg.len()) }
}

pub fn quorum(n: u64, f: u64, starts: &[u64], map: u64, msg: &[u8]) -> i64 {
    let list = (starts.as_ptr(), starts.len());
    unsafe { plain_quorum(n, f, list.0, list.1, map, msg.as_ptr(), msg.len()) }
}

pub fn seats(block: &[u8]) -> i64 {
    unsafe { plain_seats(block.as_ptr(), block.len()) }
}
