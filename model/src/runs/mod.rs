//! Long random runs of a store: paper 01, "The runs of demand 3". A run is drawn
//! from a seed and its number, by what the store answers; every answer is
//! compared with the plain machine's, and an observer who sees the lines and
//! answers alone checks the clauses of demand 3. A run that fails is shrunk to
//! a short script.

#![forbid(unsafe_code)]

pub mod asides;
pub mod beside;
pub mod check;
pub mod damaged;
pub mod drawn;
pub mod dress;
pub mod fate;
pub mod forge;
pub mod helper;
pub mod known;
pub mod library;
pub mod misuse;
pub mod observer;
pub mod operations;
pub mod pace;
pub mod player;
pub mod process;
pub mod reach;
pub mod script;
pub mod seen;
pub mod shrink;
pub mod spent;
pub mod still;
pub mod store;
pub mod tally;
pub mod traffic;
pub mod weight;
pub mod work;
pub mod wrong;
