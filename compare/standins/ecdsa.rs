//! Stand-in for `k256` and `p256`: no house record has such a key, so a call is a fault.

pub mod ecdsa {
    pub struct VerifyingKey;
    pub struct Signature;

    impl VerifyingKey {
        pub fn from_sec1_bytes(_key: &[u8]) -> Result<Self, String> {
            panic!("no house record has an ECDSA key")
        }
    }

    impl Signature {
        pub fn from_slice(_raw: &[u8]) -> Result<Self, String> {
            panic!("no house record has an ECDSA signature")
        }
    }

    pub mod signature {
        pub trait Verifier<S> {
            fn verify(&self, data: &[u8], signature: &S) -> Result<(), String>;
        }
    }

    impl signature::Verifier<Signature> for VerifyingKey {
        fn verify(&self, _data: &[u8], _signature: &Signature) -> Result<(), String> {
            panic!("no house record has an ECDSA key")
        }
    }
}
