//! Stand-in codes of keys and digests. House records use B and D, and E to I.

/// The variants are those that the given verify.rs names.
#[derive(Clone, Copy, Debug, PartialEq, Eq)]
pub enum VerKeyCode {
    Ed25519,
    Ed25519N,
    ECDSA256k1,
    ECDSA256k1N,
    ECDSA256r1,
    ECDSA256r1N,
    Ed448,
    Ed448N,
}

impl VerKeyCode {
    pub const fn is_non_transferable(&self) -> bool {
        matches!(
            self,
            Self::Ed25519N | Self::ECDSA256k1N | Self::ECDSA256r1N | Self::Ed448N
        )
    }

    pub const fn is_transferable(&self) -> bool {
        !self.is_non_transferable()
    }
}

/// The digests of 32 bytes, codes E to I.
#[derive(Clone, Copy, Debug, PartialEq, Eq)]
pub enum DigestCode {
    Blake3_256,
    Blake2b_256,
    Blake2s_256,
    Sha3_256,
    Sha2_256,
}
