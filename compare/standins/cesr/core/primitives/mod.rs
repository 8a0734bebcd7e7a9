//! Stand-in module root of the primitives; siger.rs is given.
mod siger;

pub use siger::Siger;

use super::matter::code::VerKeyCode;
use super::matter::matter::Matter;

/// A key that verifies signatures.
pub type Verfer<'a> = Matter<'a, VerKeyCode>;

/// A version tag: only named in a seal that no house record has.
pub type Verser<'a> = Matter<'a, u8>;

/// A sequence number.
#[derive(Clone, Copy, Debug, PartialEq, Eq)]
pub struct Number(u128);

impl Number {
    pub const fn new(value: u128) -> Self {
        Self(value)
    }

    pub const fn value(&self) -> u128 {
        self.0
    }
}
