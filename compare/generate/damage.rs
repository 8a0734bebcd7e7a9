//! Damages a record's bytes: bytes outside their class, counts above limits, cuts, left-overs.
use oracle_lib::record::Record;
use oracle_lib::writer::{self, Spot, Writer};

use crate::rng::Rng;

/// Writes the length again after the body changed.
pub fn fit(bytes: &mut Vec<u8>) {
    bytes.truncate(4 + 0xffff);
    let length = (bytes.len() - 4) as u16;
    bytes[2..4].copy_from_slice(&length.to_be_bytes());
}

/// The record with one or two faults of shape, or on the good side of the line.
pub fn damaged(rng: &mut Rng, record: &Record) -> Vec<u8> {
    let Writer { mut bytes, spots } = writer::whole(record);
    for _ in 0..if rng.one_in(3) { 2 } else { 1 } {
        match rng.below(12) {
            0 => bytes.truncate(4 + rng.below(bytes.len() - 4)),
            1 => bytes.extend((0..rng.range(1, 3)).map(|_| 0)),
            2 if bytes.len() > 4 => {
                let at = 4 + rng.below(bytes.len() - 4);
                bytes[at] ^= 1 << rng.below(8);
            }
            3 if bytes.len() > 4 => {
                let at = 4 + rng.below(bytes.len() - 4);
                bytes[at] = rng.pick(&[0, 1, 2, 16, 17, 255]);
            }
            4 if bytes.len() > 5 => {
                // One byte less or more in the middle.
                let at = 4 + rng.below(bytes.len() - 5);
                if rng.one_in(2) {
                    bytes.remove(at);
                } else {
                    bytes.insert(at, 0);
                }
            }
            5 if rng.one_in(8) => {
                let byte = rng.below(256) as u8;
                bytes.resize(4 + rng.pick(&[0xffff, 10_085, 10_086, 2_281, 2_282, 20_000]), byte);
            }
            _ if !spots.is_empty() => {
                let (at, spot) = rng.pick(&spots);
                if at < bytes.len() {
                    bytes[at] = near(rng, spot, bytes[at]);
                }
            }
            _ => {}
        }
    }
    fit(&mut bytes);
    bytes
}

/// Values on both sides of a class's edge.
fn near(rng: &mut Rng, spot: Spot, now: u8) -> u8 {
    match spot {
        Spot::PrefixCode | Spot::KeyCode | Spot::DigestCode => rng.pick(b"ABCDEFGHIJbe\x00\xff"),
        Spot::Count(limit) => {
            rng.pick(&[limit, limit + 1, 255, now.wrapping_add(1), now.wrapping_sub(1), 0])
        }
        Spot::Tag | Spot::Flag | Spot::Verdict => rng.pick(&[0, 1, 2, 255, 128]),
        Spot::ClauseSize => rng.pick(&[0, 15, 16, 17, 255, now.wrapping_add(1)]),
        Spot::OndexByte => rng.pick(&[0, 1, 255]),
        Spot::Trait => rng.pick(&[0, 1, 15, 16, 255]),
        Spot::Kind => rng.pick(&[0, 1, 2, 3, 255]),
    }
}

/// Every cut of a record, every byte changed once, and left-overs: exhaustive for one record.
pub fn sweep(record: &Record) -> Vec<Vec<u8>> {
    let Writer { bytes, spots } = writer::whole(record);
    let mut list = Vec::new();
    for length in 4..bytes.len() {
        list.push(bytes[..length].to_vec());
    }
    for (at, _) in &spots {
        for value in [0, 1, 2, 3, 8, 9, 15, 16, 17, 48, 49, b'B', b'D', b'E', b'I', b'J', 255] {
            let mut changed = bytes.clone();
            changed[*at] = value;
            list.push(changed);
        }
    }
    for at in 4..bytes.len() {
        let mut changed = bytes.clone();
        changed[at] ^= 0x80;
        list.push(changed);
    }
    for more in 1..3 {
        let mut longer = bytes.clone();
        longer.resize(bytes.len() + more, 0);
        list.push(longer);
    }
    for one in &mut list {
        fit(one);
    }
    list
}

/// A record with a mark that is not known, though near to one.
pub fn stranger(rng: &mut Rng) -> Vec<u8> {
    let marks: [&[u8; 2]; 12] =
        [b"KT", b"KU", b"NT", b"ic", b"CI", b"OR", b"XI", b"D\0", b"\0\0", b"\xff\xff", b"IK", b"??"];
    let mut bytes = rng.pick(&marks).to_vec();
    bytes.extend([0, 0]);
    bytes.extend((0..rng.below(40)).map(|_| rng.next() as u8));
    fit(&mut bytes);
    bytes
}

/// What ends an input with 1: a lead cut short, or a body past the end.
pub fn cut_end(rng: &mut Rng, record: &Record) -> Vec<u8> {
    let mut bytes = if rng.one_in(4) { stranger(rng) } else { writer::whole(record).bytes };
    match rng.below(3) {
        0 => bytes.truncate(rng.range(1, 3)),
        1 => {
            bytes.truncate(4);
            bytes[3] = 1;
        }
        _ => {
            let length = bytes.len();
            if length > 4 {
                bytes.truncate(length - 1);
            } else {
                bytes.truncate(3);
            }
        }
    }
    bytes
}
