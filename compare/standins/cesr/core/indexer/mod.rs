//! Stand-in `Indexer`: an indexed signature that also carries the record's two verdicts.
pub mod code;

use alloc::borrow::Cow;
use alloc::string::String;
use alloc::vec::Vec;

use code::IndexedSigCode;

#[derive(Clone, Debug, PartialEq, Eq)]
pub struct Indexer<'a> {
    code: IndexedSigCode,
    index: u32,
    ondex: Option<u32>,
    raw: Cow<'a, [u8]>,
    /// Bit 0 signature, bit 1 digest. Hidden: no given file can see or compare it.
    verdicts: u8,
}

impl<'a> Indexer<'a> {
    pub fn new(
        code: u8,
        index: u32,
        ondex: Option<u32>,
        raw: &'a [u8],
        signature_verdict: bool,
        digest_verdict: bool,
    ) -> Self {
        Self {
            code: IndexedSigCode(code),
            index,
            ondex,
            raw: Cow::Borrowed(raw),
            verdicts: u8::from(signature_verdict) | u8::from(digest_verdict) << 1,
        }
    }

    pub const fn code(&self) -> IndexedSigCode {
        self.code
    }

    pub const fn index(&self) -> u32 {
        ed25519_dalek::ask(self.verdicts);
        self.index
    }

    pub const fn ondex(&self) -> Option<u32> {
        ed25519_dalek::ask(self.verdicts);
        self.ondex
    }

    pub fn raw(&self) -> &[u8] {
        &self.raw
    }

    pub fn full_size(&self) -> usize {
        unimplemented!("no house record is written as CESR")
    }

    pub fn to_qb64(&self) -> String {
        unimplemented!("no house record is written as CESR")
    }

    pub fn to_qb2(&self) -> Vec<u8> {
        unimplemented!("no house record is written as CESR")
    }
}
