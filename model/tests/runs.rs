//! Long random runs of the compiled program `cases` beside the plain machine:
//! every answer and every byte is compared, and the clauses of demand 3 are
//! checked on what the program answered.
//!
//! TOVRIDSA_SEED, TOVRIDSA_STEPS and TOVRIDSA_FROM as `drawn` has them;
//! TOVRIDSA_CASES names another program.
//! `cargo test --release --test runs -- --nocapture` shows the counts.

mod common;
mod drawn;

use model::machine::calls::Right;
use model::machine::program::Program;
use model::machine::transfers::Transfers;
use model::runs::beside::{answered, Beside};

#[test]
fn program_and_machine_agree() {
    let beside = Beside {
        model: || Box::new(Program::<Transfers, _>::new(Right)),
        answered,
        check: drawn::check,
    };
    drawn::agree(&beside, |run| run);
}
