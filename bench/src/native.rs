//! The proved library as a C host uses it (core.c), the plain C (store.c), and the plain C by value (value.c): rows of functions with the same signatures,
//! on the same records.

use crate::records::{untold, Desk, ResultAnswer, Server};
use crate::store::Store;
use model::weights::Config;

type Refused = i64;

#[derive(Clone, Copy)]
pub struct Native {
    open_server: unsafe extern "C" fn(*mut Server, u64, u64, u64, *const u64, usize) -> Refused,
    transfer: unsafe extern "C" fn(*mut Server, u64, u64) -> Refused,
    share: unsafe extern "C" fn(*const Server, *mut u8, usize, usize) -> i64,
    serve: unsafe extern "C" fn(
        *mut Server,
        *const u8,
        usize,
        *mut u8,
        usize,
        usize,
        *mut u64,
    ) -> Refused,
    open_desk: unsafe extern "C" fn(*mut Desk, u64, u64, u64, *const u64, usize) -> Refused,
    begin_read: unsafe extern "C" fn(*mut Desk, u32) -> Refused,
    begin_write: unsafe extern "C" fn(*mut Desk, u32, *const u8, usize) -> Refused,
    ask: unsafe extern "C" fn(*const Desk, u64, *mut u8, usize, usize) -> i64,
    hear: unsafe extern "C" fn(*mut Desk, *const u8, usize) -> i64,
    result: unsafe extern "C" fn(*const Desk, *mut ResultAnswer) -> Refused,
    margin: unsafe extern "C" fn(*const Desk) -> i64,
    drop: unsafe extern "C" fn(*mut Desk) -> Refused,
}

/// Declares the functions of one row and makes the row.
macro_rules! row {
    ($name:ident, $open_server:ident, $transfer:ident, $share:ident, $serve:ident, $open_desk:ident, $begin_read:ident, $begin_write:ident,
     $ask:ident, $hear:ident, $result:ident, $margin:ident, $drop:ident) => {
        pub const $name: Native = {
            extern "C" {
                fn $open_server(
                    server: *mut Server,
                    n: u64,
                    f: u64,
                    number: u64,
                    starts: *const u64,
                    starts_len: usize,
                ) -> i64;
                fn $transfer(server: *mut Server, taker: u64, amount: u64) -> i64;
                fn $share(server: *const Server, out: *mut u8, len: usize, at: usize) -> i64;
                fn $serve(
                    server: *mut Server,
                    msg: *const u8,
                    msg_len: usize,
                    out: *mut u8,
                    out_len: usize,
                    at: usize,
                    end: *mut u64,
                ) -> i64;
                fn $open_desk(
                    desk: *mut Desk,
                    n: u64,
                    f: u64,
                    number: u64,
                    starts: *const u64,
                    starts_len: usize,
                ) -> i64;
                fn $begin_read(desk: *mut Desk, note: u32) -> i64;
                fn $begin_write(desk: *mut Desk, note: u32, value: *const u8, len: usize) -> i64;
                fn $ask(desk: *const Desk, server: u64, out: *mut u8, len: usize, at: usize)
                    -> i64;
                fn $hear(desk: *mut Desk, msg: *const u8, len: usize) -> i64;
                fn $result(desk: *const Desk, told: *mut ResultAnswer) -> i64;
                fn $margin(desk: *const Desk) -> i64;
                fn $drop(desk: *mut Desk) -> i64;
            }
            Native {
                open_server: $open_server,
                transfer: $transfer,
                share: $share,
                serve: $serve,
                open_desk: $open_desk,
                begin_read: $begin_read,
                begin_write: $begin_write,
                ask: $ask,
                hear: $hear,
                result: $result,
                margin: $margin,
                drop: $drop,
            }
        };
    };
}

// The plain C.
row!(
    PLAIN,
    plain_open_server,
    plain_transfer,
    plain_share,
    plain_serve,
    plain_open_desk,
    plain_begin_read,
    plain_begin_write,
    plain_ask,
    plain_hear,
    plain_result,
    plain_margin,
    plain_drop
);

// The proved library, every record by value.
row!(
    CORE,
    core_open_server,
    core_transfer,
    core_share,
    core_serve,
    core_open_desk,
    core_begin_read,
    core_begin_write,
    core_ask,
    core_hear,
    core_result,
    core_margin,
    core_drop
);

// The plain C called as the library is, every record by value.
row!(
    VALUE,
    value_open_server,
    value_transfer,
    value_share,
    value_serve,
    value_open_desk,
    value_begin_read,
    value_begin_write,
    value_ask,
    value_hear,
    value_result,
    value_margin,
    value_drop
);

// The library, but hear on a record that it is lent.
row!(
    LENT,
    core_open_server,
    core_transfer,
    core_share,
    core_serve,
    core_open_desk,
    core_begin_read,
    core_begin_write,
    core_ask,
    core_hear_lent,
    core_result,
    core_margin,
    core_drop
);

/// n, f and the list of a cluster, as a call takes them.
fn numbers(config: Config) -> (u64, u64, Vec<u64>) {
    (config.n() as u64, config.f() as u64, config.starts())
}

// Openings of any numbers and any list: the answer, and the record.
impl Native {
    pub fn opened_server(&self, n: u64, f: u64, number: u64, starts: &[u64]) -> (i64, Server) {
        let mut server = Server::NONE;
        let (list, length) = (starts.as_ptr(), starts.len());
        // SAFETY: as for all calls, below.
        let answer = unsafe { (self.open_server)(&mut server, n, f, number, list, length) };
        (answer, server)
    }

    pub fn opened_desk(&self, n: u64, f: u64, number: u64, starts: &[u64]) -> (i64, Desk) {
        let mut desk = Desk::NONE;
        let (list, length) = (starts.as_ptr(), starts.len());
        // SAFETY: as for all calls, below.
        let answer = unsafe { (self.open_desk)(&mut desk, n, f, number, list, length) };
        (answer, desk)
    }
}

// SAFETY of all calls: records are lent as references, so they are aligned and nobody else has them; slices are valid for their lengths, and no two of
// them overlap where one is written; the functions take any bits in a record and keep no pointer.
impl Store for Native {
    type Server = Server;
    type Desk = Desk;

    fn open_server(&self, config: Config, number: u64) -> Server {
        let (n, f, starts) = numbers(config);
        self.opened_server(n, f, number, &starts).1
    }

    fn transfer(&self, server: &mut Server, taker: u64, amount: u64) -> i64 {
        unsafe { (self.transfer)(server, taker, amount) }
    }

    fn share(&self, server: &Server, out: &mut [u8], at: usize) -> i64 {
        unsafe { (self.share)(server, out.as_mut_ptr(), out.len(), at) }
    }

    fn serve(&self, server: &mut Server, msg: &[u8], out: &mut [u8], at: usize) -> (i64, usize) {
        let mut end = 0;
        let answer = unsafe {
            (self.serve)(
                server,
                msg.as_ptr(),
                msg.len(),
                out.as_mut_ptr(),
                out.len(),
                at,
                &mut end,
            )
        };
        (answer, end as usize)
    }

    fn open_desk(&self, config: Config, number: u64) -> Desk {
        let (n, f, starts) = numbers(config);
        self.opened_desk(n, f, number, &starts).1
    }

    fn begin_read(&self, desk: &mut Desk, note: u32) -> i64 {
        unsafe { (self.begin_read)(desk, note) }
    }

    fn begin_write(&self, desk: &mut Desk, note: u32, value: &[u8]) -> i64 {
        unsafe { (self.begin_write)(desk, note, value.as_ptr(), value.len()) }
    }

    fn ask(&self, desk: &Desk, server: u64, out: &mut [u8], at: usize) -> i64 {
        unsafe { (self.ask)(desk, server, out.as_mut_ptr(), out.len(), at) }
    }

    fn hear(&self, desk: &mut Desk, msg: &[u8]) -> i64 {
        unsafe { (self.hear)(desk, msg.as_ptr(), msg.len()) }
    }

    fn result(&self, desk: &Desk) -> ResultAnswer {
        let mut told = untold(0);
        unsafe { (self.result)(desk, &mut told) };
        told
    }

    fn margin(&self, desk: &Desk) -> i64 {
        unsafe { (self.margin)(desk) }
    }

    fn drop(&self, desk: &mut Desk) -> i64 {
        unsafe { (self.drop)(desk) }
    }

    fn round(&self, desk: &Desk) -> u32 {
        desk.round
    }

    fn ended(&self, desk: &Desk) -> bool {
        desk.operation.mode == 2
    }
}
