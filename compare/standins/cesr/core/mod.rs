//! Stand-in module root: qualified values, indexed signatures, primitives.
pub mod indexer;
pub mod matter;
pub mod primitives;
