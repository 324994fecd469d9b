//! A model of paper 01, with the changes of paper 02 that are made, written by
//! hand from the papers alone, to be compared with the proved library and the
//! proved program.
//!
//! Messages, weights and seats: the first group of modules is the model, the
//! second the library, with the same four signatures and with all that a C host
//! calls on servers and desks, the third draws the cases on which the four must
//! agree and asks both, and has message checkers that misread the papers.
//!
//! Servers and desks, in two folders:
//! - `machine`: the plain machine of "The runs of demand 3" over sets of
//!   transfers (`transfers`), the same servers and desks over counts and cells
//!   (`ledger`) for messages that were forged, and the program `cases` around
//!   them, that speaks lines (`command`, `parse`, `record`, `program`).
//! - `runs`: long random runs. A run is drawn (`pace`, `player`, `known`; what
//!   happens in it: `traffic`, `work`, `weight`, `misuse`, `helper`, `asides`;
//!   forged messages: `damaged`, `forge`; `spent` is one long run to a counter's
//!   end), played on a store (`store`, `script`; the program: `process`; the
//!   library: `library`), seen from outside (`seen`), checked (`check`, `beside`,
//!   `observer`, `operations`, `still`), counted (`tally`, `fate`, `reach`) and
//!   made short where it fails (`shrink`). `wrong` has the wrong stores that
//!   come close.
//!
//! `conformance` makes the test files for those who write a server or a desk of
//! their own.
//!
//! To run the comparisons: `cd model && cargo test --release`, after
//! `tools/build`.

pub mod answers;
pub mod format;
pub mod place;
pub mod seats;
pub mod weights;
pub mod write;

pub mod proved;

pub mod aim;
pub mod calls;
pub mod cases;
pub mod damage;
pub mod lawful;
pub mod misread;
pub mod patch;
pub mod random;
pub mod starts;

pub mod machine;
pub mod runs;

pub mod conformance;
