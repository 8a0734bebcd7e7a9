//! Stand-in module root of the verification; verify.rs is given.
pub mod algo;
pub mod error;
pub mod signature;
mod verify;

pub use verify::{verify, verify_indexed};
