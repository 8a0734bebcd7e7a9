//! Which clause of a threshold is short: b of 27 and 28, from document 02, request 2. The Rust does not
//! say it, so it is asked about each clause alone; what a clause needs is the Rust's own rule.
use keri::{Authority, Commitment};
use keri_events::SigningThreshold;

use crate::record::*;
use crate::rust;

/// The first clause that is not met, counted from 1, or 0 where there is none. A clause alone stands at
/// its own places: weights of 0/1 stand for the clauses before it and add nothing.
fn first_short(threshold: &Threshold, met: impl Fn(&SigningThreshold) -> bool) -> u128 {
    let Threshold::Weighted(clauses) = threshold else { return 0 };
    let mut base = 0;
    for (number, clause) in (1..).zip(clauses) {
        let alone = [vec![(0, 1); base], clause.clone()].concat();
        if !met(&rust::threshold(&Threshold::Weighted(vec![alone]))) {
            return number;
        }
        base += clause.len();
    }
    0
}

/// Of a list of places; of one that does not rise strictly there is none to name, and `Simple(0)` is
/// what the Rust says no to for that reason only.
pub fn of_sorted(threshold: &Threshold, places: &[u32]) -> u128 {
    if !SigningThreshold::Simple(0).satisfied_by_sorted_unique(places) {
        return 0;
    }
    first_short(threshold, |alone| alone.satisfied_by_sorted_unique(places))
}

pub fn of_any(threshold: &Threshold, places: &[u32]) -> u128 {
    first_short(threshold, |alone| alone.satisfied_by(places.iter().copied()))
}

/// b of 27.
pub fn of_signatures(keys: &[Item], threshold: &Threshold, signatures: &[Signature]) -> u128 {
    let (keys, sigers) = (rust::keys(keys), rust::sigers(signatures));
    first_short(threshold, |alone| Authority::new(&keys, alone).verify(b"", &sigers).is_ok())
}

/// b of 28, of the threshold that was promised. Own keys decide which signatures count, and with
/// `Simple(0)` never refuse.
pub fn of_opening(
    next: &[Item],
    next_threshold: &Threshold,
    keys: &[Item],
    signatures: &[Signature],
) -> u128 {
    let (next, keys) = (rust::digests(next), rust::keys(keys));
    let sigers = rust::sigers(signatures);
    let own = Authority::new(&keys, &SigningThreshold::Simple(0));
    first_short(next_threshold, |alone| {
        Commitment::new(&next, alone).verify_opening(&own, b"", &sigers).is_ok()
    })
}
