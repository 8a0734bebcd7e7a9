//! Stand-in errors of the verification: the variants that the given verify.rs makes.
use alloc::string::String;

use crate::core::matter::code::VerKeyCode;

#[derive(Debug, thiserror::Error)]
pub enum SignatureError {
    VerificationFailed(String),
    InvalidSignatureLength { expected: usize, actual: usize },
    Invalid,
}

#[derive(Debug, thiserror::Error)]
pub enum CodeMismatchError {
    IncompatibleCodes { verkey: String, signature: String },
}

#[derive(Debug, thiserror::Error)]
pub enum VerificationError {
    CodeMismatch(#[from] CodeMismatchError),
    UnsupportedAlgorithm { verkey: VerKeyCode },
    Signature(#[from] SignatureError),
}

#[derive(Debug, thiserror::Error)]
pub enum IndexedVerifyError {
    IndexOutOfRange { index: u32, key_count: usize },
    Verification(#[from] VerificationError),
}
