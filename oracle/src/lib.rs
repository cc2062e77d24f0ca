//! The Rust's `SrtGroup` beside the port: see README.md.

pub mod calls;
pub mod cases;
pub mod codes;
pub mod commands;
pub mod cover;
pub mod faults;
pub mod fields;
pub mod gateway;
pub mod generate;
pub mod listing;
pub mod replay;
pub mod trace;
