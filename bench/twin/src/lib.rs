//! Reads advisories and compares versions as `osv_service` does, in plain Rust.

pub mod advisory;
pub mod fault;
mod json;
pub mod package;
mod range;
mod time;
pub mod version;
