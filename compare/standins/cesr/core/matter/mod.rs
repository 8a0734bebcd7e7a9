//! Stand-in module root of qualified values.
pub mod code;
pub mod matter;
