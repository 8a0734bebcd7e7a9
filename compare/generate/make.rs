//! Makes events that a held state accepts, and snapshots, both plain and odd.
use oracle_lib::holder::Holder;
use oracle_lib::record::*;

use crate::rng::Rng;

/// What kind of life a stream shows.
#[derive(Clone, Copy)]
pub struct Taste {
    /// Lists and counts at their limits.
    pub big: bool,
    /// Thresholds whose sums overflow for some sets of signers.
    pub heavy: bool,
    /// Out of 100 inceptions, so many have EstOnly.
    pub est_only: usize,
    /// Out of 100 establishment events, so many commit to nothing.
    pub closing: usize,
}

pub const PLAIN: Taste = Taste { big: false, heavy: false, est_only: 10, closing: 2 };

/// Items of one class differ in one or two bytes only, so that a comparison that skips any
/// byte is noticed.
pub fn item(code: u8, number: usize) -> Item {
    let mut item = [0x55; 33];
    item[0] = code;
    item[1 + number % 32] = (number / 32) as u8;
    item
}

pub fn key(rng: &mut Rng) -> Item {
    let code = if rng.one_in(3) { b'B' } else { b'D' };
    item(code, rng.below(400))
}

pub fn digest(rng: &mut Rng) -> Item {
    let code = b'E' + rng.below(5) as u8;
    item(code, rng.below(2000))
}

pub fn witness(rng: &mut Rng) -> Item {
    item(b'B', rng.below(60))
}

/// Signatures differ in one byte of 64 only.
pub fn raw(rng: &mut Rng) -> [u8; 64] {
    let mut raw = [0xaa; 64];
    raw[rng.below(64)] = rng.below(256) as u8;
    raw
}

fn size(rng: &mut Rng, taste: Taste, low: usize) -> usize {
    if taste.big && rng.percent(60) {
        rng.range(14, 16)
    } else {
        rng.range(low, 5)
    }
}

const MAX: u64 = u64::MAX;
const HALF: u64 = 1 << 63;

/// Weights near the edge of u64: alone they are fine, together some of them overflow.
pub const HEAVY: [(u64, u64); 15] = [
    (1, HALF),
    (1, MAX),
    (MAX, MAX),
    (MAX, 1),
    (MAX - 1, MAX),
    (HALF, HALF),
    (HALF, MAX),
    (1 << 32, 1 << 32),
    (1, 1 << 32),
    ((1 << 32) - 1, 1 << 32),
    (1, 1),
    (0, HALF),
    (0, 2),
    (0, 1 << 32),
    (3, 1),
];

const LIGHT: [(u64, u64); 10] =
    [(1, 2), (1, 2), (1, 3), (1, 4), (2, 3), (1, 1), (3, 4), (0, 1), (3, 1), (2, 4)];

/// Whether some signers can satisfy it. Only roughly: a wrong answer makes a stream duller.
pub fn reachable(threshold: &Threshold, keys: usize) -> bool {
    let clauses = match threshold {
        Threshold::Simple(required) => return *required <= keys as u64,
        Threshold::Weighted(clauses) => clauses,
    };
    let alone = |(n, d): &(u64, u64)| n >= d;
    let share = |(n, d): &(u64, u64)| *n as f64 / *d as f64;
    clauses.iter().map(Vec::len).sum::<usize>() <= keys
        && !clauses.is_empty()
        && clauses.iter().all(|clause| {
            clause.iter().all(|(_, d)| *d != 0)
                && (clause.iter().any(alone)
                    || clause.iter().map(share).sum::<f64>() > 0.9999
                        && clause.iter().map(|(_, d)| *d as f64).product::<f64>() < 1e18)
        })
}

/// A threshold of good shape for so many keys that some signers can satisfy.
pub fn threshold(rng: &mut Rng, taste: Taste, keys: usize) -> Threshold {
    if keys == 0 || (!taste.heavy && rng.percent(50)) {
        return Threshold::Simple(rng.range(1, keys.max(1)) as u64);
    }
    let total = if rng.one_in(4) { rng.range(1, keys) } else { keys };
    let mut clauses = vec![vec![]];
    for _ in 0..total {
        if !clauses.last().unwrap().is_empty() && rng.one_in(if taste.big { 2 } else { 4 }) {
            clauses.push(vec![]);
        }
        let choices: &[(u64, u64)] =
            if taste.heavy && rng.percent(60) { &HEAVY } else { &LIGHT };
        let weight = rng.pick(choices);
        clauses.last_mut().unwrap().push(weight);
    }
    for clause in &mut clauses {
        if !reachable(&Threshold::Weighted(vec![clause.clone()]), clause.len()) {
            let place = rng.below(clause.len());
            clause[place] = rng.pick(&[(1, 1), (2, 2), (3, 1)]);
        }
    }
    Threshold::Weighted(clauses)
}

/// Different items; the list may be shorter where the choice is small.
fn different(rng: &mut Rng, count: usize, mut one: impl FnMut(&mut Rng) -> Item) -> Vec<Item> {
    let mut list = Vec::new();
    for _ in 0..4 * count {
        let item = one(rng);
        if list.len() < count && !list.contains(&item) {
            list.push(item);
        }
    }
    list
}

pub fn config(rng: &mut Rng, taste: Taste) -> Vec<u8> {
    let mut config: Vec<u8> = (0..rng.below(3)).map(|_| rng.range(2, 15) as u8).collect();
    if taste.big {
        config.resize(rng.range(0, 8), 15);
    }
    if rng.percent(taste.est_only) {
        let at = rng.below(config.len() + 1);
        config.insert(at, 1);
        config.truncate(8);
    }
    config
}

fn toad(rng: &mut Rng, witnesses: usize) -> u32 {
    if witnesses == 0 { 0 } else { rng.range(1, witnesses) as u32 }
}

pub fn receipts(rng: &mut Rng, witnesses: usize) -> Vec<Signature> {
    let mut list: Vec<Signature> = (0..witnesses).map(|place| sign(rng, place, None)).collect();
    if rng.one_in(3) {
        rng.shuffle(&mut list);
    }
    list
}

pub fn sign(rng: &mut Rng, index: usize, ondex: Option<usize>) -> Signature {
    Signature {
        code: rng.pick(b"ABCAB0"),
        index: index as u32,
        ondex: ondex.map(|place| place as u32),
        raw: raw(rng),
        verified: true,
        matches: rng.one_in(2) || ondex.is_some(),
    }
}

/// One signature for each key; in a rotation each place of the old next list gets an ondex,
/// at a key place that is usually another one.
fn signatures(rng: &mut Rng, keys: usize, old_next: usize) -> Vec<Signature> {
    let mut places: Vec<usize> = (0..old_next).collect();
    if rng.percent(70) {
        rng.shuffle(&mut places);
    }
    let mut list: Vec<Signature> =
        (0..keys).map(|index| sign(rng, index, places.get(index).copied())).collect();
    for place in places.iter().skip(keys) {
        let index = rng.below(keys);
        list.push(sign(rng, index, Some(*place)));
    }
    if rng.one_in(2) {
        rng.shuffle(&mut list);
    }
    list
}

pub fn inception(rng: &mut Rng, taste: Taste) -> Inception {
    let prefix = match rng.below(10) {
        0 | 1 => item(b'B', rng.below(400)),
        2..=4 => item(b'D', rng.below(400)),
        _ => digest(rng),
    };
    let basic = matches!(prefix[0], b'B' | b'D');
    let keys = if basic {
        vec![prefix]
    } else {
        let count = size(rng, taste, 1);
        (0..count).map(|_| key(rng)).collect()
    };
    let bare = prefix[0] == b'B';
    let next_count = if bare || rng.percent(taste.closing) { 0 } else { size(rng, taste, 1) };
    let next: Vec<Item> = (0..next_count).map(|_| digest(rng)).collect();
    let witness_count = if bare { 0 } else { size(rng, taste, 0) };
    let witnesses = different(rng, witness_count, witness);
    // An ondex has no use here, and must not matter.
    let ondexes = rng.pick(&[0, 0, 0, 2]);
    Inception {
        prefix,
        sn: 0,
        said: digest(rng),
        threshold: if basic { Threshold::Simple(1) } else { threshold(rng, taste, keys.len()) },
        next_threshold: threshold(rng, taste, next.len()),
        toad: toad(rng, witnesses.len()),
        config: config(rng, taste),
        anchors: if bare { 0 } else { rng.pick(&[0, 0, 1, 7, u32::MAX]) },
        signatures: signatures(rng, keys.len(), ondexes),
        receipts: receipts(rng, witnesses.len()),
        keys,
        next,
        witnesses,
    }
}

pub fn rotation(rng: &mut Rng, taste: Taste, state: &Snapshot) -> Rotation {
    let key_count = size(rng, taste, 1);
    let next_count = if rng.percent(taste.closing) { 0 } else { size(rng, taste, 1) };
    let keys: Vec<Item> = (0..key_count).map(|_| key(rng)).collect();
    let next: Vec<Item> = (0..next_count).map(|_| digest(rng)).collect();
    let mut removals: Vec<Item> = Vec::new();
    for member in &state.witnesses {
        if member[0] == b'B' && !removals.contains(member) && rng.one_in(4) {
            removals.push(*member);
        }
    }
    rng.shuffle(&mut removals);
    let kept = state.witnesses.iter().filter(|member| !removals.contains(member)).count();
    let wanted = size(rng, taste, 0).min(16usize.saturating_sub(kept));
    let additions: Vec<Item> = different(rng, wanted.min(3 + 13 * usize::from(taste.big)), witness)
        .into_iter()
        .filter(|member| !state.witnesses.contains(member))
        .collect();
    let witnesses = kept + additions.len();
    Rotation {
        prefix: state.prefix,
        sn: state.sn.wrapping_add(1),
        said: digest(rng),
        prior: state.said,
        threshold: threshold(rng, taste, keys.len()),
        next_threshold: threshold(rng, taste, next.len()),
        toad: toad(rng, witnesses),
        anchors: rng.pick(&[0, 0, 1]),
        signatures: signatures(rng, keys.len(), state.next.len()),
        receipts: receipts(rng, witnesses),
        keys,
        next,
        additions,
        removals,
    }
}

pub fn interaction(rng: &mut Rng, state: &Snapshot) -> Interaction {
    let ondexes = rng.pick(&[0, 0, 0, 3]);
    Interaction {
        prefix: state.prefix,
        sn: state.sn.wrapping_add(1),
        said: digest(rng),
        prior: state.said,
        anchors: rng.pick(&[0, 1, 1, 900]),
        signatures: signatures(rng, state.keys.len(), ondexes),
        receipts: receipts(rng, state.witnesses.len()),
    }
}

/// A snapshot that a fold could have reached.
pub fn snapshot(rng: &mut Rng, taste: Taste) -> Snapshot {
    let start = inception(rng, taste);
    Snapshot {
        prefix: start.prefix,
        sn: number(rng),
        said: digest(rng),
        latest: rng.below(3) as u8,
        transferable: start.prefix[0] != b'B' && !start.next.is_empty(),
        keys: start.keys,
        threshold: start.threshold,
        next: start.next,
        next_threshold: start.next_threshold,
        witnesses: start.witnesses,
        toad: start.toad,
        config: start.config,
        establishment_sn: number(rng),
        establishment_said: digest(rng),
    }
}

/// A snapshot of good shape that no fold reaches: later checks run on it as it stands.
pub fn odd_snapshot(rng: &mut Rng, taste: Taste) -> Snapshot {
    let mut state = snapshot(rng, taste);
    state.transferable = !rng.one_in(10);
    for _ in 0..rng.range(1, 3) {
        match rng.below(10) {
            0 => state.prefix = item(b'B', rng.below(400)),
            1 => state.next = vec![],
            2 => state.next_threshold = Threshold::Simple(rng.below(2) as u64),
            3 => state.threshold = crate::spoil::bad_threshold(rng, state.keys.len()),
            4 => state.next_threshold = crate::spoil::bad_threshold(rng, state.next.len()),
            5 => {
                // Equal witnesses: each is its own place for receipts.
                let twin = state.witnesses.first().copied().unwrap_or_else(|| witness(rng));
                state.witnesses.push(twin);
                state.witnesses.insert(0, twin);
                state.witnesses.truncate(16);
            }
            6 => {
                let place = rng.below(state.witnesses.len().min(15) + 1);
                state.witnesses.insert(place, item(b'D', rng.below(60)));
                state.witnesses.truncate(16);
            }
            7 => state.toad = rng.pick(&[0, 1, 17, u32::MAX]),
            8 => state.keys = vec![],
            _ => {
                state.witnesses = different(rng, 16, witness);
                state.toad = rng.range(0, 3) as u32;
            }
        }
    }
    state
}

/// Sequence numbers with the edges of one and of two words.
pub fn number(rng: &mut Rng) -> u128 {
    let word = 1u128 << 64;
    let edges = [0, 1, word - 2, word - 1, word, u128::MAX - 2, u128::MAX - 1, u128::MAX, u128::MAX];
    match rng.below(5) {
        0 | 1 => rng.pick(&edges),
        2 => u128::from(rng.next()) * word + u128::from(rng.next()),
        _ => rng.below(300) as u128,
    }
}

pub fn parts(record: &mut Record) -> Option<(&mut Vec<Signature>, &mut Vec<Signature>)> {
    match record {
        Record::Inception(r) => Some((&mut r.signatures, &mut r.receipts)),
        Record::Rotation(r) => Some((&mut r.signatures, &mut r.receipts)),
        Record::Interaction(r) => Some((&mut r.signatures, &mut r.receipts)),
        _ => None,
    }
}

fn accepted(holder: &Holder, record: &Record) -> bool {
    holder.clone().offer(record).number == 0
}

/// Looks for signers that satisfy, and often takes away all that can be spared, so that the
/// next spoil that takes one more crosses the line.
pub fn settle(rng: &mut Rng, holder: &Holder, mut record: Record) -> Record {
    let full = record.clone();
    for _ in 0..12 {
        if accepted(holder, &record) {
            break;
        }
        record = full.clone();
        if let Some((signatures, _)) = parts(&mut record) {
            signatures.retain(|_| rng.one_in(2));
        }
    }
    if rng.one_in(2) || !accepted(holder, &record) {
        return record;
    }
    for _ in 0..rng.range(2, 12) {
        let mut fewer = record.clone();
        let Some((signatures, receipts)) = parts(&mut fewer) else { break };
        let list = if rng.one_in(2) { signatures } else { receipts };
        if !list.is_empty() {
            let place = rng.below(list.len());
            list.remove(place);
        }
        if accepted(holder, &fewer) {
            record = fewer;
        }
    }
    record
}
