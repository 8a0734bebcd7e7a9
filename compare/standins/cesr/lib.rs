//! Stand-in root of the `cesr` crate: the parts that the given siger.rs and verify.rs lean on.
extern crate alloc;

pub mod core;
pub mod crypto;
