//! The oracle's library: house records in, the given Rust's answers and states out.
pub mod calls;
pub mod clause;
pub mod encode;
pub mod holder;
pub mod reader;
pub mod record;
pub mod report;
pub mod rust;
pub mod writer;

/// Lower-case hex of bytes.
pub fn hex(bytes: &[u8]) -> String {
    bytes.iter().map(|byte| format!("{byte:02x}")).collect()
}
