//! Plain Rust to time the verified library against, and the inputs.

pub mod plain;
#[path = "../../docs/checker.rs"]
pub mod simple;
pub mod workload;
