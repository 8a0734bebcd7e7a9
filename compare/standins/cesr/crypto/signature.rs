//! Stand-in `Signature`: what the given verify.rs asks of a signature.
use alloc::string::String;

use super::algo::Algorithm;
use crate::core::primitives::Siger;

pub trait Signature {
    fn belongs_to<A: Algorithm>(&self) -> bool;
    fn code_name(&self) -> String;
    fn raw(&self) -> &[u8];
}

impl Signature for Siger<'_> {
    /// Always: document 01 only compares a signature's code, whatever byte it is.
    fn belongs_to<A: Algorithm>(&self) -> bool {
        true
    }

    fn code_name(&self) -> String {
        String::from(self.code().as_str())
    }

    fn raw(&self) -> &[u8] {
        Siger::raw(self)
    }
}
