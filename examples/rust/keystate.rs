//! Safe Rust over the device's static library: a key state in a buffer, records offered to it. No allocation, no std.
//!
//! The library is proved to answer for every input and to leave every byte as its statement says, so each function here is a
//! call and nothing else. include/keystate.h has the words about records, verdict bytes and the order of calls.
//! Link with `-l static=keystate`, or `cargo:rustc-link-lib=static=keystate` from a build script.
#![cfg_attr(not(test), no_std)]

use core::fmt;

/// A state never takes more bytes.
pub const STATE_BYTES: usize = 2285;
/// No record that can be accepted is longer.
pub const RECORD_BYTES: usize = 10_089;

unsafe extern "C" {
    fn keystate_offer(state: *mut u8, capacity: usize, used: *mut usize, input: *const u8, length: usize, details: *mut [u64; 4]) -> u8;
    fn keystate_fold(state: *mut u8, capacity: usize, used: *mut usize, input: *const u8, length: usize, details: *mut [u64; 4]) -> u8;
    fn keystate_ask(state: *const u8, used: usize, details: *mut [u64; 4]) -> u8;
    fn keystate_length(input: *const u8, length: usize) -> usize;
    fn keystate_attainable(threshold: *const u8, length: usize, keys: usize, yes: *mut u8) -> u8;
}

/// A number other than 0, with its details.
#[derive(Clone, Copy, Debug, PartialEq, Eq)]
pub struct Refusal {
    pub number: u8,
    pub a: u128,
    pub b: u128,
}

const NAMES: [&str; 42] = [
    "accepted", "Truncated", "UnknownMark", "BadField", "TooMany", "StateHeld", "EvidenceRequired", "DelegatorUnknown",
    "NotInception", "DuplicateInception", "NonTransferableState", "NonZeroGenesisSn", "BasicKeyCount", "BasicThreshold",
    "BasicKeyMismatch", "NonTransferableNextKeys", "NonTransferableWitnesses", "NonTransferableAnchors", "Duplicate",
    "TransferableWitness", "CutAddOverlap", "RemovalNotCurrent", "AdditionAlreadyPresent", "BelowMinimum", "ExceedsKeyCount",
    "EmptyClauseList", "EmptyClause", "MissingSignatures", "PriorNextThresholdUnsatisfied", "NonTransferableCommitsNextKeys",
    "WitnessThresholdZeroWithWitnesses", "WitnessThresholdExceeded", "InsufficientWitnessReceipts", "IdentifierMismatch",
    "SequenceNumberOverflow", "OutOfOrder", "PriorDigestMismatch", "InteractionOnEstablishmentOnly", "TooManyWitnesses",
    "Overflow", "OutOfRange", "NoRoom",
];

impl Refusal {
    pub fn name(&self) -> &'static str {
        NAMES.get(usize::from(self.number)).copied().unwrap_or("?")
    }

    /// Of 27 and 28 the first clause that is not satisfied, counted from 1, where there is one to name. 27 speaks of the record's
    /// own threshold (of the state's for an interaction), 28 of the next threshold that the state holds.
    pub fn short_clause(&self) -> Option<u128> {
        Some(self.b).filter(|b| matches!(self.number, 27 | 28) && *b != 0)
    }
}

impl fmt::Display for Refusal {
    fn fmt(&self, f: &mut fmt::Formatter<'_>) -> fmt::Result {
        write!(f, "{} {} (a {}, b {})", self.number, self.name(), self.a, self.b)
    }
}

fn answer(number: u8, [a_high, a_low, b_high, b_low]: [u64; 4]) -> Result<u128, Refusal> {
    let wide = |high: u64, low: u64| u128::from(high) << 64 | u128::from(low);
    let (a, b) = (wide(a_high, a_low), wide(b_high, b_low));
    if number == 0 { Ok(a) } else { Err(Refusal { number, a, b }) }
}

/// Offers the first record of `input` to the state in the first `used` bytes of `state`. A refusal changes neither.
pub fn offer(state: &mut [u8], used: &mut usize, input: &[u8]) -> Result<(), Refusal> {
    let mut details = [0; 4];
    // SAFETY: the pointers come from references, so they are valid for their lengths and do not overlap.
    let number = unsafe { keystate_offer(state.as_mut_ptr(), state.len(), used, input.as_ptr(), input.len(), &mut details) };
    answer(number, details).map(|_| ())
}

/// The same without the checks, for a history that was checked before.
pub fn fold(state: &mut [u8], used: &mut usize, input: &[u8]) -> Result<(), Refusal> {
    let mut details = [0; 4];
    // SAFETY: as in `offer`.
    let number = unsafe { keystate_fold(state.as_mut_ptr(), state.len(), used, input.as_ptr(), input.len(), &mut details) };
    answer(number, details).map(|_| ())
}

/// The state's number, or none where nothing is held. An error where the bytes are no state's.
pub fn ask(state: &[u8]) -> Result<Option<u128>, Refusal> {
    let mut details = [0; 4];
    // SAFETY: as in `offer`.
    let number = unsafe { keystate_ask(state.as_ptr(), state.len(), &mut details) };
    if number == 8 { Ok(None) } else { answer(number, details).map(Some) }
}

/// The first record of `input`, refused or not, and what stands behind it.
pub fn split_record(input: &[u8]) -> (&[u8], &[u8]) {
    // SAFETY: as in `offer`. The length is proved to be at most the input's.
    input.split_at(unsafe { keystate_length(input.as_ptr(), input.len()) })
}

/// Whether so many keys can satisfy a threshold at all. The bytes are as in a record.
pub fn attainable(threshold: &[u8], keys: usize) -> Result<bool, Refusal> {
    let mut yes = 0;
    // SAFETY: as in `offer`.
    let number = unsafe { keystate_attainable(threshold.as_ptr(), threshold.len(), keys, &mut yes) };
    answer(number, [0; 4]).map(|_| yes == 1)
}

/// A state in a buffer of its own: nothing held, or one state.
#[derive(Clone)]
pub struct State {
    bytes: [u8; STATE_BYTES],
    used: usize,
}

impl State {
    pub const EMPTY: Self = Self { bytes: [0; STATE_BYTES], used: 0 };

    /// What `as_bytes` gave before, from flash.
    pub fn from_bytes(saved: &[u8]) -> Result<Self, Refusal> {
        ask(saved)?;
        let mut state = Self::EMPTY;
        state.bytes[..saved.len()].copy_from_slice(saved);
        state.used = saved.len();
        Ok(state)
    }

    /// What is to be kept.
    pub fn as_bytes(&self) -> &[u8] {
        &self.bytes[..self.used]
    }

    pub fn offer(&mut self, input: &[u8]) -> Result<(), Refusal> {
        offer(&mut self.bytes, &mut self.used, input)
    }

    pub fn fold(&mut self, input: &[u8]) -> Result<(), Refusal> {
        fold(&mut self.bytes, &mut self.used, input)
    }

    /// The state's number, where one is held.
    pub fn sn(&self) -> Option<u128> {
        ask(self.as_bytes()).ok().flatten()
    }
}

#[cfg(test)]
#[path = "tests.rs"]
mod tests;
