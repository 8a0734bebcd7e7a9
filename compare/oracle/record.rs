//! House records as plain values, and the limits of document 01.

pub const MAX_ITEMS: usize = 16;
pub const MAX_CLAUSES: usize = 16;
pub const MAX_WEIGHTS: usize = 16;
pub const MAX_CONFIG: usize = 8;
pub const MAX_SIGNATURES: usize = 48;

/// A code byte and 32 bytes.
pub type Item = [u8; 33];

#[derive(Clone, Debug, PartialEq)]
pub enum Threshold {
    Simple(u64),
    /// Clauses of numerator and denominator.
    Weighted(Vec<Vec<(u64, u64)>>),
}

#[derive(Clone, Debug, PartialEq)]
pub struct Signature {
    pub code: u8,
    pub index: u32,
    pub ondex: Option<u32>,
    pub raw: [u8; 64],
    /// The signature verdict.
    pub verified: bool,
    /// The digest verdict.
    pub matches: bool,
}

#[derive(Clone, Debug, PartialEq)]
pub struct Inception {
    pub prefix: Item,
    pub sn: u128,
    pub said: Item,
    pub keys: Vec<Item>,
    pub threshold: Threshold,
    pub next: Vec<Item>,
    pub next_threshold: Threshold,
    pub witnesses: Vec<Item>,
    pub toad: u32,
    pub config: Vec<u8>,
    pub anchors: u32,
    pub signatures: Vec<Signature>,
    pub receipts: Vec<Signature>,
}

#[derive(Clone, Debug, PartialEq)]
pub struct Rotation {
    pub prefix: Item,
    pub sn: u128,
    pub said: Item,
    pub prior: Item,
    pub keys: Vec<Item>,
    pub threshold: Threshold,
    pub next: Vec<Item>,
    pub next_threshold: Threshold,
    pub additions: Vec<Item>,
    pub removals: Vec<Item>,
    pub toad: u32,
    pub anchors: u32,
    pub signatures: Vec<Signature>,
    pub receipts: Vec<Signature>,
}

#[derive(Clone, Debug, PartialEq)]
pub struct Interaction {
    pub prefix: Item,
    pub sn: u128,
    pub said: Item,
    pub prior: Item,
    pub anchors: u32,
    pub signatures: Vec<Signature>,
    pub receipts: Vec<Signature>,
}

#[derive(Clone, Debug, PartialEq)]
pub struct Snapshot {
    pub prefix: Item,
    pub sn: u128,
    pub said: Item,
    /// 0 IC, 1 RO, 2 IX.
    pub latest: u8,
    pub keys: Vec<Item>,
    pub threshold: Threshold,
    pub next: Vec<Item>,
    pub next_threshold: Threshold,
    pub witnesses: Vec<Item>,
    pub toad: u32,
    pub config: Vec<u8>,
    pub transferable: bool,
    pub establishment_sn: u128,
    pub establishment_said: Item,
}

#[derive(Clone, Debug, PartialEq)]
pub enum Record {
    Inception(Inception),
    Rotation(Rotation),
    Interaction(Interaction),
    DelegatedInception,
    DelegatedRotation,
    Snapshot(Snapshot),
}

/// An answer number with its two details.
#[derive(Clone, Copy, Debug, PartialEq, Eq)]
pub struct Answer {
    pub number: u32,
    pub a: u128,
    pub b: u128,
}

impl Answer {
    pub const ACCEPTED: Self = Self::plain(0);

    pub const fn plain(number: u32) -> Self {
        Self { number, a: 0, b: 0 }
    }

    pub fn with(number: u32, a: u128, b: u128) -> Self {
        Self { number, a, b }
    }
}

impl core::fmt::Display for Answer {
    /// As keyreport writes it: the number decimal, the details in hex.
    fn fmt(&self, f: &mut core::fmt::Formatter<'_>) -> core::fmt::Result {
        write!(f, "{} {:x} {:x}", self.number, self.a, self.b)
    }
}
