//! The plain machine of paper 01, "The runs of demand 3", and the program that
//! drives a store by lines (docs/SCRIPTS.md). Servers and desks are written
//! once, over any sheet: sets of transfers make the plain machine, which has no
//! test for the numbers 2 to 6; counts and cells make the model for messages
//! that were forged or damaged on the way.

#![forbid(unsafe_code)]

pub mod calls;
pub mod command;
pub mod desk;
pub mod ledger;
pub mod letter;
pub mod number;
pub mod parse;
pub mod program;
pub mod record;
pub mod register;
pub mod server;
pub mod sheet;
pub mod transfers;
pub mod vector;
