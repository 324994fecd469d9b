//! Test files for somebody who writes a server or a desk of their own: scripts in
//! the lines of docs/SCRIPTS.md, plainly written, that get one answer each. Here
//! the lines are made, by hand (`messages`, `faults`, `server`, `desk`) or taken from runs
//! that are drawn from a fixed seed (`drawn`); the answers stored beside them are
//! the proved program's. `cargo run --release --example conformance` writes both.
//!
//! A file is for one party: from one house to the next all lines that name a
//! server there is, or a desk, name the same one. What the others do is in the
//! bytes of the messages.

#![forbid(unsafe_code)]

pub mod desk;
pub mod drawn;
pub mod faults;
pub mod kinds;
pub mod line;
pub mod messages;
pub mod reach;
pub mod server;
pub mod spent;
pub mod sums;

use line::{text, Line};

/// The seed of all that is drawn at random in the files.
pub const SEED: u64 = 1;

/// A file of lines.
pub struct File {
    pub name: &'static str,
    pub lines: Vec<String>,
}

impl File {
    fn new(name: &'static str, lines: &[Line]) -> File {
        let lines = lines.iter().map(text).collect();
        File { name, lines }
    }

    /// The text that is stored.
    pub fn text(&self) -> String {
        as_text(&self.lines)
    }
}

/// Lines as a file has them, each with its end.
pub fn as_text(lines: &[String]) -> String {
    lines.iter().flat_map(|line| [line, "\n"]).collect()
}

/// The files that are stored.
pub fn files() -> Vec<File> {
    vec![
        File::new("messages", &messages::lines()),
        File::new("server", &server::lines()),
        File::new("desk", &desk::lines()),
    ]
}

/// The long file that is written when it is wanted.
pub fn spent() -> File {
    File::new("spent", &spent::lines())
}
