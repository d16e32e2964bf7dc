//! How fast the proved library is beside plain Rust, on the same words and in the same process.

pub mod inputs;
pub mod measure;
pub mod plain_c;
pub mod plain_rust;
pub mod tables;
pub mod workloads;
