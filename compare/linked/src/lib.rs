//! The project's stores and its ranking as a Rust program links them, held against the crate.

pub mod account;
pub mod ffi;
pub mod mixed;
pub mod ranking;
pub mod shelf;
pub mod store;
