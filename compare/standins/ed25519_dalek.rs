//! Stand-in for `ed25519_dalek`: no cryptography, it answers the signature verdict of the record.
//!
//! The verdicts of a signature travel outside of the given files. The stand-in `Indexer`
//! carries them and puts them in the slot below whenever it is asked for its index or ondex.
//! The Rust asks the same signature right before it verifies, so the slot is never stale.

/// Verdicts of the signature asked last: bit 0 signature, bit 1 digest.
static mut ASKED: u8 = 0;

/// Called by the stand-in `Indexer`. A `const fn` since `Siger::index` is one.
pub const fn ask(verdicts: u8) {
    // The oracle has one thread, and nothing keeps a reference to the slot.
    unsafe { ASKED = verdicts }
}

/// The signature verdict of the signature asked last.
pub fn signature_verdict() -> bool {
    unsafe { (&raw const ASKED).read() & 1 != 0 }
}

/// The digest verdict of the signature asked last.
pub fn digest_verdict() -> bool {
    unsafe { (&raw const ASKED).read() & 2 != 0 }
}

#[derive(Debug)]
pub struct Refused;

impl core::fmt::Display for Refused {
    fn fmt(&self, f: &mut core::fmt::Formatter<'_>) -> core::fmt::Result {
        f.write_str("refused")
    }
}

pub struct VerifyingKey;

impl VerifyingKey {
    pub fn from_bytes(_key: &[u8; 32]) -> Result<Self, Refused> {
        Ok(Self)
    }

    pub fn verify_strict(&self, _data: &[u8], _signature: &Signature) -> Result<(), Refused> {
        if signature_verdict() { Ok(()) } else { Err(Refused) }
    }
}

pub struct Signature;

impl Signature {
    pub fn from_bytes(_raw: &[u8; 64]) -> Self {
        Self
    }
}
