//! The records of include/tovridsa.h, field by field. They are plain numbers:
//! any bits in them are fine, for Rust and for the library.

use std::mem::size_of;

use crate::weights::MOST;

/// Makes each record from its size, its name and its fields. The size is that
/// of all fields together, so there is no padding, each field lies after those
/// before it, and `==` compares two records byte for byte.
macro_rules! records {
    ($($(#[$doc:meta])* $size:literal $name:ident { $($field:ident: $type:ty,)* })*) => {
        $(
            $(#[$doc])*
            #[repr(C)]
            #[derive(Clone, Copy, Debug, PartialEq, Eq)]
            pub struct $name { $(pub $field: $type,)* }

            const _: () = assert!(size_of::<$name>() == $size);
            const _: () = assert!($(size_of::<$type>() +)* 0 == $size);
        )*
    };
}

records! {
    /// The cluster, with what its servers weigh at the start, 0 from n on.
    48 Config {
        n: u64,
        f: u64,
        starts: [u16; MOST],
    }

    /// The transfers that a party knows: how many giver i made, and what it gave
    /// taker j in all, `cells[i][j]`. (The header has the cells in one row.)
    1056 Ledger {
        counts: [u16; MOST],
        cells: [[u32; MOST]; MOST],
    }

    /// The first `length` of the bytes.
    66 Value {
        length: u16,
        bytes: [u8; 64],
    }

    /// A tag, and the value written.
    72 Register {
        stamp: u32,
        desk: u16,
        value: Value,
    }

    /// What a party holds.
    1128 Replica {
        ledger: Ledger,
        register: Register,
    }

    1184 Server {
        config: Config,
        number: u64,
        replica: Replica,
    }

    /// What a desk does. Mode 0 is nothing, 1 runs, 2 has ended; kind 1 reads, 2
    /// writes; `answered` is a map of servers.
    156 Operation {
        mode: u32,
        note: u32,
        restarts: u32,
        kind: u16,
        phase: u16,
        answered: u16,
        value: Value,
        chosen: Register,
    }

    1344 Desk {
        config: Config,
        number: u64,
        replica: Replica,
        round: u32,
        operation: Operation,
    }

    /// An answer, and the server's record after the call.
    1192 ServerAnswer {
        answer: i64,
        server: Server,
    }

    /// The same of serve, and the place in the buffer after the reply.
    1200 ServeAnswer {
        answer: i64,
        end: u64,
        server: Server,
    }

    /// An answer, and the desk's record after the call.
    1352 DeskAnswer {
        answer: i64,
        desk: Desk,
    }

    /// An answer, and the result of an operation.
    88 ResultAnswer {
        answer: i64,
        restarts: u32,
        kind: u32,
        register: Register,
    }
}

impl Config {
    /// No cluster: all is 0.
    pub const NONE: Config = Config {
        n: 0,
        f: 0,
        starts: [0; MOST],
    };
}

impl Register {
    /// The register at the start: all is 0.
    pub const START: Register = Register {
        stamp: 0,
        desk: 0,
        value: Value {
            length: 0,
            bytes: [0; 64],
        },
    };
}

impl Replica {
    /// What a party holds at the start: all is 0.
    pub const START: Replica = Replica {
        ledger: Ledger {
            counts: [0; MOST],
            cells: [[0; MOST]; MOST],
        },
        register: Register::START,
    };
}

impl Operation {
    /// Whether kind and phase go with the mode, as the record test has it
    /// (paper 01, "Numbers handed out", 1): a kind where there is an operation,
    /// a phase where one runs, and nothing above them in any mode.
    pub fn has_kind_and_phase(&self) -> bool {
        let kinds = if self.mode == 0 { 0..=2 } else { 1..=2 };
        let phases = if self.mode == 1 { 1..=2 } else { 0..=2 };
        kinds.contains(&self.kind) && phases.contains(&self.phase)
    }

    /// No operation: all is 0.
    pub const NONE: Operation = Operation {
        mode: 0,
        note: 0,
        restarts: 0,
        kind: 0,
        phase: 0,
        answered: 0,
        value: Register::START.value,
        chosen: Register::START,
    };
}

impl Server {
    /// What a refused open hands back: all is 0.
    pub const NONE: Server = Server {
        config: Config::NONE,
        number: 0,
        replica: Replica::START,
    };
}

impl Desk {
    /// The same of a desk.
    pub const NONE: Desk = Desk {
        config: Config::NONE,
        number: 0,
        replica: Replica::START,
        round: 0,
        operation: Operation::NONE,
    };
}
