//! How quick the proved core is beside the Rust model and beside plain C: the calls of a C host on messages, on servers and on desks, and whole writes
//! and reads.

pub mod cases;
pub mod implementation;
pub mod machine;
pub mod messages;
pub mod native;
pub mod plain;
pub mod records;
pub mod report;
pub mod scene;
pub mod stats;
pub mod store;
pub mod timing;
