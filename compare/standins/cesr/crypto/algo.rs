//! Stand-in algorithms: each leads back to the given verify.rs, as the real ones do.
use super::error::SignatureError;
use super::verify::{verify_ed25519, verify_secp256k1, verify_secp256r1};

pub trait Algorithm {
    fn verify_bytes(key: &[u8], data: &[u8], sig: &[u8]) -> Result<(), SignatureError>;
}

pub struct Ed25519;
pub struct Secp256k1;
pub struct Secp256r1;

impl Algorithm for Ed25519 {
    fn verify_bytes(key: &[u8], data: &[u8], sig: &[u8]) -> Result<(), SignatureError> {
        verify_ed25519(key, data, sig)
    }
}

impl Algorithm for Secp256k1 {
    fn verify_bytes(key: &[u8], data: &[u8], sig: &[u8]) -> Result<(), SignatureError> {
        verify_secp256k1(key, data, sig)
    }
}

impl Algorithm for Secp256r1 {
    fn verify_bytes(key: &[u8], data: &[u8], sig: &[u8]) -> Result<(), SignatureError> {
        verify_secp256r1(key, data, sig)
    }
}
