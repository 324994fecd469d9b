//! The model as a program that speaks the lines of docs/SCRIPTS.md, to hold a
//! script against it: `cargo run --release --example lines < script`. It takes
//! messages by their bytes, so its sheets are counts and cells.

use std::io::{stdin, stdout, BufRead, Write};

use model::machine::calls::Right;
use model::machine::command::Command;
use model::machine::program::Program;
use model::weights::Ledger;

fn main() -> std::io::Result<()> {
    let mut program = Program::<Ledger, _>::new(Right);
    let mut output = stdout().lock();
    for line in stdin().lock().lines() {
        let line = line?;
        let command = Command::Text(line.clone());
        if let Some(answer) = program.answer(&line, &command) {
            writeln!(output, "{answer}")?;
            output.flush()?;
        }
    }
    Ok(())
}
