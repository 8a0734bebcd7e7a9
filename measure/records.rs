//! Records of the sizes that are timed. Each is accepted behind the one with the number before it.
use oracle_lib::record::*;

#[derive(Clone, Copy)]
pub struct Size {
    pub keys: usize,
    pub weighted: bool,
    pub signatures: usize,
    pub receipts: usize,
    pub witnesses: usize,
    /// So many witnesses are cut and as many added.
    pub change: usize,
    /// The prefix is the first key, not a digest.
    pub basic: bool,
    pub likeness: Likeness,
}

/// How like each other the signatures are, and the receipts.
#[derive(Clone, Copy, PartialEq)]
pub enum Likeness {
    /// No two are copies, and their bytes look random, as those of real ones do.
    Apart,
    /// No two are copies, but they agree in all but their last byte.
    Alike,
    /// All are copies of the first: one place signs, and its weight and one receipt are enough.
    Copies,
}

pub const ONE: Size = Size { keys: 1, weighted: false, signatures: 1, receipts: 0, witnesses: 0, change: 0, basic: false, likeness: Likeness::Apart };
pub const WIDEST: Size = Size { keys: 16, weighted: true, signatures: 48, receipts: 48, witnesses: 16, change: 16, basic: false, likeness: Likeness::Apart };

pub fn item(code: u8, number: usize) -> Item {
    let mut item = [0x55; 33];
    item[0] = code;
    item[32] = number as u8;
    item
}

pub fn items(code: u8, from: usize, count: usize) -> Vec<Item> {
    (from..from + count).map(|n| item(code, n)).collect()
}

pub fn prefix(z: Size) -> Item {
    if z.basic { item(b'D', 0) } else { item(b'E', 1) }
}

/// One clause of weights 1/8: checked sums stay within 64 bits for 16 of them.
pub fn threshold(z: Size) -> Threshold {
    let weight = if z.likeness == Likeness::Copies { (1, 1) } else { (1, 8) };
    if z.weighted { Threshold::Weighted(vec![vec![weight; z.keys]]) } else { Threshold::Simple(z.keys as u64) }
}

pub fn toad(z: Size) -> u32 {
    if z.likeness == Likeness::Copies { z.witnesses.min(1) as u32 } else { z.witnesses as u32 }
}

pub fn signatures(count: usize, places: usize, ondex: bool, likeness: Likeness) -> Vec<Signature> {
    let mut seed: u64 = 88172645463325252;
    let mut random = || {
        seed ^= seed << 13;
        seed ^= seed >> 7;
        seed ^= seed << 17;
        (seed >> 32) as u8
    };
    let one = |n: usize| {
        let mut raw = [0; 64];
        let mut place = (n % places) as u32;
        match likeness {
            Likeness::Apart => raw.fill_with(&mut random),
            Likeness::Alike => raw[63] = n as u8,
            Likeness::Copies => place = 0,
        }
        Signature { code: b'A', index: place, ondex: ondex.then_some(place), raw, verified: true, matches: true }
    };
    if places == 0 { vec![] } else { (0..count).map(one).collect() }
}

pub fn inception(z: Size) -> Record {
    Record::Inception(Inception {
        prefix: prefix(z),
        sn: 0,
        said: item(b'E', 1),
        keys: items(b'D', 0, z.keys),
        threshold: threshold(z),
        next: items(b'E', 40, z.keys),
        next_threshold: threshold(z),
        witnesses: items(b'B', 0, z.witnesses),
        toad: toad(z),
        config: vec![],
        anchors: 0,
        signatures: signatures(z.signatures, z.keys, false, z.likeness),
        receipts: signatures(z.receipts, z.witnesses, false, z.likeness),
    })
}

/// Where every second record is a rotation, the first witnesses come back with every second of these.
pub fn rotation(z: Size, sn: usize) -> Record {
    let (old, new) = if sn % 4 == 1 { (0, 100) } else { (100, 0) };
    Record::Rotation(Rotation {
        prefix: prefix(z),
        sn: sn as u128,
        said: item(b'E', sn + 1),
        prior: item(b'E', sn),
        keys: items(b'D', 100, z.keys),
        threshold: threshold(z),
        next: items(b'E', 80, z.keys),
        next_threshold: threshold(z),
        additions: items(b'B', new, z.change),
        removals: items(b'B', old, z.change),
        toad: toad(z),
        anchors: 0,
        signatures: signatures(z.signatures, z.keys, true, z.likeness),
        receipts: signatures(z.receipts, z.witnesses, false, z.likeness),
    })
}

pub fn interaction(z: Size, sn: usize) -> Record {
    Record::Interaction(Interaction {
        prefix: prefix(z),
        sn: sn as u128,
        said: item(b'E', sn + 1),
        prior: item(b'E', sn),
        anchors: 1,
        signatures: signatures(z.signatures, z.keys, false, z.likeness),
        receipts: signatures(z.receipts, z.witnesses, false, z.likeness),
    })
}
