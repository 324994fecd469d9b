//! Runs of the compiled program `cases` in which messages are damaged or forged
//! on their way. The model over counts and cells predicts each answer and each
//! byte, and a refused or late call leaves the record as it was. The clauses of
//! demand 3 say nothing of such runs and are not checked.
//!
//! TOVRIDSA_SEED, TOVRIDSA_STEPS, TOVRIDSA_FROM and TOVRIDSA_CASES as for the
//! other runs.

mod common;
mod forged;

use model::machine::calls::Right;
use model::machine::program::Program;
use model::runs::beside::{answered, Beside};
use model::runs::still::changed;
use model::weights::Ledger;

#[test]
fn program_and_model_agree_on_damaged_messages() {
    let beside = Beside {
        model: || Box::new(Program::<Ledger, _>::new(Right)),
        answered,
        check: changed,
    };
    forged::agree(&beside, |run| run);
}
