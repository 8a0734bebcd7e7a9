//! Direct calls of the given Rust in a small text syntax: one request a line, one answer a line.
//!
//! An answer begins with number, a and b as keyreport writes them; a value follows if there
//! is one. `attainable` answers only `yes` or `no`; `sorted` and `any` `yes`, or `no` and the
//! clause that is short (clause.rs).
//!
//! ITEM is a code letter and hex digits, filled with zeros on the left: `B1`, `D0a`, `E`.
//! LIST is items with commas between, or `-`. THRESHOLD is `s2`, or `w` and clauses with `;`
//! between, each of weights with `,` between: `w1/2,1/2;1/1`. `w-` has no clauses, `w` one
//! empty clause. SIGS is signatures with commas between, or `-`; each is
//! code.index.ondex.raw.verified.matches, all decimal but raw, which is hex, and an ondex of
//! `-` for none: `65.0.-.7f.1.0`.
//!
//! ```text
//! ample N                              toad, or 39
//! exact TOAD N                         toad, or 40
//! sorted THRESHOLD PLACE..             satisfied_by_sorted_unique
//! any THRESHOLD PLACE..                satisfied_by
//! attainable THRESHOLD KEYS            all places below KEYS (ours, asked of satisfied_by)
//! wellformed THRESHOLD KEYS            0, or 23 to 26
//! witnesses LIST                       0, 18 or 19
//! deltas CUTS ADDITIONS                0, or 18 to 20
//! members CURRENT CUTS ADDITIONS       the list, or 38
//! identity PREFIX KEYS THRESHOLD NEXT WITNESSES ANCHORS      0, or 12 to 17
//! signatures KEYS THRESHOLD SIGS       0, or 27
//! opening NEXT THRESHOLD KEYS THRESHOLD SIGS                 0, 27 or 28
//! receipts TOAD WITNESSES SIGS         0, or 32
//! save STATE ROOM                      length and bytes, or 8 or 41; STATE is a KS in hex or -
//! ```
use keri::{Authority, Commitment, Witnessing};
use keri_events::member_set::MemberSet;
use keri_events::{Toad, ToadError};

use crate::holder::Holder;
use crate::reader::{self, Head};
use crate::record::*;
use crate::{clause, hex, rust};

/// The answer to one request. A request that is not in the syntax is a fault: it panics.
pub fn answer(line: &str) -> String {
    let words: Vec<&str> = line.split_whitespace().collect();
    match *words.as_slice() {
        ["ample", n] => toad(Toad::ample(parse(n))),
        ["exact", value, n] => toad(Toad::exact(parse(value), parse(n))),
        ["sorted", shape, ref places @ ..] => {
            let (shape, places) = (threshold(shape), numbers(places));
            let met = rust::threshold(&shape).satisfied_by_sorted_unique(&places);
            judged(met, clause::of_sorted(&shape, &places))
        }
        ["any", shape, ref places @ ..] => {
            let (shape, places) = (threshold(shape), numbers(places));
            let met = rust::threshold(&shape).satisfied_by(places.iter().copied());
            judged(met, clause::of_any(&shape, &places))
        }
        ["attainable", shape, keys] => {
            yes(rust::threshold(&threshold(shape)).satisfied_by(0..parse::<u32>(keys)))
        }
        ["wellformed", shape, keys] => numbered(
            rust::threshold(&threshold(shape))
                .check_well_formed(parse(keys))
                .map_err(|error| rust::threshold_number(&error)),
        ),
        ["witnesses", list] => numbered(
            MemberSet::check_witnesses(&rust::witnesses(&items(list)), "witnesses")
                .map_err(|error| rust::members_number(&error)),
        ),
        ["deltas", cuts, additions] => numbered(
            MemberSet::check_witness_deltas(
                &rust::witnesses(&items(cuts)),
                &rust::witnesses(&items(additions)),
                "witness removals",
                "witness additions",
            )
            .map_err(|error| rust::members_number(&error)),
        ),
        ["members", current, cuts, additions] => {
            let current = rust::witnesses(&items(current));
            let cuts = rust::witnesses(&items(cuts));
            let additions = rust::witnesses(&items(additions));
            let members: Vec<String> = keri::updated_members(&current, &cuts, &additions)
                .map(|member| text(&rust::key_item(member.as_matter())))
                .collect();
            if members.len() > MAX_ITEMS {
                return Answer::with(38, wide(members.len()), 0).to_string();
            }
            let list = if members.is_empty() { "-".into() } else { members.join(",") };
            format!("{} {list}", Answer::ACCEPTED)
        }
        ["identity", prefix, keys, shape, next, witnesses, anchors] => {
            let event = rust::inception(&Inception {
                prefix: item(prefix),
                sn: 0,
                said: item("E"),
                keys: items(keys),
                threshold: threshold(shape),
                next: items(next),
                next_threshold: Threshold::Simple(1),
                witnesses: items(witnesses),
                toad: 0,
                config: vec![],
                anchors: parse(anchors),
                signatures: vec![],
                receipts: vec![],
            });
            numbered(event.check_identity().map_err(|error| rust::identity_number(&error)))
        }
        ["signatures", keys, shape, list] => {
            let (keys, shape, list) = (items(keys), threshold(shape), signatures(list));
            let verified = Authority::new(&rust::keys(&keys), &rust::threshold(&shape))
                .verify(b"", &rust::sigers(&list))
                .map(drop);
            let b = clause::of_signatures(&keys, &shape, &list);
            numbered(verified.map_err(|rejection| Answer { b, ..rust::number(&rejection) }))
        }
        ["opening", next, next_shape, keys, shape, list] => {
            let (next, next_shape) = (items(next), threshold(next_shape));
            let (keys, shape, list) = (items(keys), threshold(shape), signatures(list));
            let opened = Commitment::new(&rust::digests(&next), &rust::threshold(&next_shape))
                .verify_opening(
                    &Authority::new(&rust::keys(&keys), &rust::threshold(&shape)),
                    b"",
                    &rust::sigers(&list),
                );
            numbered(opened.map_err(|rejection| match rust::number(&rejection) {
                answer @ Answer { number: 27, .. } => {
                    Answer { b: clause::of_signatures(&keys, &shape, &list), ..answer }
                }
                answer => Answer { b: clause::of_opening(&next, &next_shape, &keys, &list), ..answer },
            }))
        }
        ["receipts", value, witnesses, list] => {
            let witnesses = rust::witnesses(&items(witnesses));
            let list = signatures(list);
            let receipted = Witnessing::new(&witnesses, Toad::from_wire(parse(value)))
                .receipted_by(b"", &rust::sigers(&list));
            numbered(receipted.map_err(|rejection| rust::number(&rejection)))
        }
        ["save", state, room] => save(state, parse(room)),
        _ => panic!("not a request: {line}"),
    }
}

fn save(state: &str, room: usize) -> String {
    let mut holder = Holder::default();
    if state != "-" {
        let bytes = from_hex(state);
        let Head::Whole { mark: mark @ [b'K', b'S'], body, rest: [] } = reader::head(&bytes) else {
            panic!("not one KS record: {state}");
        };
        holder.offer(&reader::body(mark, body).expect("a KS of good shape"));
    }
    match holder.save(room) {
        Ok(bytes) => format!("{} {}", Answer::with(0, wide(bytes.len()), 0), hex(&bytes)),
        Err(answer) => answer.to_string(),
    }
}

fn toad(result: Result<Toad, ToadError>) -> String {
    match result {
        Ok(toad) => format!("{} {}", Answer::ACCEPTED, toad.value()),
        Err(ToadError::Overflow { witnesses }) => Answer::with(39, wide(witnesses), 0).to_string(),
        Err(ToadError::OutOfRange { toad, witnesses }) => {
            Answer::with(40, u128::from(toad), wide(witnesses)).to_string()
        }
    }
}

fn judged(met: bool, clause: u128) -> String {
    if met { "yes".into() } else { format!("no {clause}") }
}

fn yes(verdict: bool) -> String {
    if verdict { "yes".into() } else { "no".into() }
}

fn numbered(result: Result<(), Answer>) -> String {
    result.err().unwrap_or(Answer::ACCEPTED).to_string()
}

fn wide(count: usize) -> u128 {
    u128::try_from(count).expect("a count")
}

pub(crate) fn parse<T: core::str::FromStr>(word: &str) -> T {
    word.parse().unwrap_or_else(|_| panic!("not a number: {word}"))
}

fn numbers(words: &[&str]) -> Vec<u32> {
    words.iter().map(|word| parse(word)).collect()
}

fn parts(list: &str) -> impl Iterator<Item = &str> {
    list.split(',').filter(move |_| list != "-")
}

pub(crate) fn item(word: &str) -> Item {
    let mut item = [0; 33];
    item[0] = word.as_bytes()[0];
    fill(&mut item[1..], &word[1..]);
    item
}

pub(crate) fn items(list: &str) -> Vec<Item> {
    parts(list).map(item).collect()
}

/// The shortest text of an item.
fn text(item: &Item) -> String {
    let digits = hex(&item[1..]);
    format!("{}{}", char::from(item[0]), digits.trim_start_matches('0'))
}

/// Hex digits into the right end of a place that is zero.
fn fill(place: &mut [u8], digits: &str) {
    let bytes = from_hex(&format!("{}{digits}", if digits.len() % 2 == 1 { "0" } else { "" }));
    let start = place.len() - bytes.len();
    place[start..].copy_from_slice(&bytes);
}

pub(crate) fn from_hex(digits: &str) -> Vec<u8> {
    let byte = |at| u8::from_str_radix(&digits[at..at + 2], 16).expect("hex digits");
    (0..digits.len()).step_by(2).map(byte).collect()
}

pub(crate) fn threshold(word: &str) -> Threshold {
    if let Some(required) = word.strip_prefix('s') {
        return Threshold::Simple(parse(required));
    }
    let clauses = word.strip_prefix('w').unwrap_or_else(|| panic!("not a threshold: {word}"));
    if clauses == "-" {
        return Threshold::Weighted(vec![]);
    }
    let weight = |word: &str| {
        let (numerator, denominator) = word.split_once('/').expect("a weight");
        (parse(numerator), parse(denominator))
    };
    let clause = |word: &str| -> Vec<_> {
        word.split(',').filter(|_| !word.is_empty()).map(weight).collect()
    };
    Threshold::Weighted(clauses.split(';').map(clause).collect())
}

pub(crate) fn signatures(list: &str) -> Vec<Signature> {
    parts(list)
        .map(|word| {
            let [code, index, ondex, raw, verified, matches] =
                word.split('.').collect::<Vec<_>>().try_into().expect("six parts");
            let mut signature = Signature {
                code: parse(code),
                index: parse(index),
                ondex: (ondex != "-").then(|| parse(ondex)),
                raw: [0; 64],
                verified: verified == "1",
                matches: matches == "1",
            };
            fill(&mut signature.raw, raw);
            signature
        })
        .collect()
}
