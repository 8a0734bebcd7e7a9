//! Spoils an event near one check: each arm is about one number or one easy slip.
use oracle_lib::record::*;

use crate::make::{self, item};
use crate::rng::Rng;

/// Thresholds of bad shape for the key count, or on the line.
pub fn bad_threshold(rng: &mut Rng, keys: usize) -> Threshold {
    let weights = |count: usize| vec![(1, 2); count];
    let over = (keys + 1).min(16);
    match rng.below(13) {
        0 | 1 => Threshold::Simple(0),
        2 => Threshold::Simple(keys as u64 + 1),
        3 => Threshold::Simple(keys as u64),
        4 => Threshold::Simple(rng.pick(&[u64::MAX, 1 << 32, (1 << 32) + 1, 257, 65_537])),
        5 => Threshold::Weighted(vec![]),
        6 => Threshold::Weighted(vec![vec![]]),
        7 => Threshold::Weighted(vec![weights(keys.min(16)), vec![]]),
        8 => Threshold::Weighted(vec![vec![], weights(over)]),
        9 => Threshold::Weighted(vec![weights(over)]),
        10 => Threshold::Weighted(vec![weights(over - 1), weights(1)]),
        11 => {
            // A zero denominator is of good shape and fails its clause, signed or not.
            let mut clause = vec![(1, 1); keys.clamp(1, 16)];
            let place = rng.below(clause.len());
            clause[place] = rng.pick(&[(1, 0), (0, 0), (u64::MAX, 0)]);
            Threshold::Weighted(vec![clause])
        }
        _ => Threshold::Weighted(vec![vec![rng.pick(&[(1, 1), (2, 2), (1, 2)])]]),
    }
}

/// The same item but for one bit, or for its code within the class.
fn twin(rng: &mut Rng, item: &Item, codes: &[u8]) -> Item {
    let mut twin = *item;
    if rng.one_in(3) {
        twin[0] = rng.pick(codes);
    } else {
        // The edges of words are where a comparison would stop too early.
        let place = rng.range(1, 32);
        let place = rng.pick(&[1, 8, 9, 16, 17, 24, 25, 32, place, place, place]);
        twin[place] ^= 1 << rng.below(8);
    }
    twin
}

/// Wrong sequence numbers beside the right one.
fn wrong_sn(rng: &mut Rng, right: u128) -> u128 {
    match rng.below(8) {
        0 => right.wrapping_sub(1),
        1 => right.wrapping_add(1),
        2 => right.wrapping_add(1 << 64),
        3 => right.rotate_left(64),
        4 => 0,
        5 => u128::MAX,
        6 => right ^ (1 << rng.below(128)),
        _ => make::number(rng),
    }
}

/// Signatures or receipts: places is how many keys or witnesses there are.
fn signatures(rng: &mut Rng, list: &mut Vec<Signature>, places: usize, ondexes: usize) {
    let at = rng.below(list.len());
    let edge = |rng: &mut Rng, places: usize| {
        let places = places as u32;
        rng.pick(&[places, places.saturating_sub(1), places + 1, 0, 16, 256, 65_536, u32::MAX, 1 << 31])
    };
    match rng.below(28) {
        0 => list.clear(),
        1 | 2 if !list.is_empty() => drop(list.remove(at)),
        3 | 4 if !list.is_empty() => list[at].verified = false,
        5 | 6 if !list.is_empty() => list[at].matches = !list[at].matches,
        7 if !list.is_empty() => {
            list[at].index = if rng.one_in(3) { list[at].index.wrapping_add(256) } else { edge(rng, places) };
        }
        8 if !list.is_empty() => list[at].ondex = None,
        9 if !list.is_empty() => {
            let far = list[at].ondex.map(|place| place.wrapping_add(256));
            list[at].ondex = if rng.one_in(2) { far } else { Some(edge(rng, ondexes)) };
        }
        10 if !list.is_empty() => {
            // One ondex twice: places count, not signatures.
            let other = rng.below(list.len());
            list[at].ondex = list[other].ondex;
        }
        11 if !list.is_empty() => {
            let other = rng.below(list.len());
            list[at].index = list[other].index;
        }
        12..=14 if !list.is_empty() => {
            // A copy with other verdicts, before or after: the first decides.
            let mut copy = list[at].clone();
            if rng.one_in(2) {
                copy.verified = !copy.verified;
            }
            if rng.one_in(2) {
                copy.matches = !copy.matches;
            }
            let place = if rng.one_in(2) { at } else { rng.below(list.len() + 1) };
            list.insert(place, copy);
        }
        15 | 16 if !list.is_empty() => {
            // Nearly a copy: one part differs, so both count for themselves.
            let mut copy = list[at].clone();
            copy.verified = !copy.verified;
            match rng.below(4) {
                0 => copy.code ^= 1 << rng.below(8),
                1 => {
                    let place = rng.below(64);
                    copy.raw[rng.pick(&[0, 0, 63, 63, 31, 32, place, place])] ^= 1 << rng.below(8);
                }
                2 if copy.ondex == Some(0) => copy.ondex = None,
                2 if copy.ondex.is_none() => copy.ondex = Some(0),
                2 => copy.ondex = None,
                _ => copy.index ^= 1 << rng.below(5),
            }
            let place = rng.below(list.len() + 1);
            list.insert(place, copy);
        }
        17 => {
            // Up to the limit, with copies and strangers.
            while list.len() < rng.range(40, 48) {
                let index = rng.below(places + 2);
                let ondex = rng.below(ondexes + 2);
                let mut one = make::sign(rng, index, Some(ondex).filter(|_| index % 2 == 0));
                one.verified = rng.one_in(3);
                one.matches = rng.one_in(2);
                list.push(one);
            }
        }
        18 => {
            for one in list.iter_mut() {
                one.ondex = Some(one.index);
            }
        }
        19..=21 if !list.is_empty() => {
            // Up to the limit, copies of any before them, of copies too, among first ones that seldom verify.
            let strangers = rng.pick(&[0, 50, 80]);
            list.iter_mut().for_each(|one| one.verified = rng.one_in(3));
            while list.len() < 48 {
                let from = if rng.one_in(2) { 0 } else { list.len().saturating_sub(8) };
                let mut one = list[from + rng.below(list.len() - from)].clone();
                one.verified = true;
                one.matches = rng.one_in(2);
                if rng.percent(strangers) {
                    one.raw[rng.below(64)] ^= 1 << rng.below(8);
                    one.verified = rng.one_in(3);
                }
                list.push(one);
            }
        }
        25..=27 if (1..40).contains(&list.len()) => {
            // A no, strangers all around, and at the end the same with yes, or nearly the same: that decides.
            let mut again = list[at].clone();
            again.verified = true;
            list[at].verified = false;
            match (rng.below(4), again.ondex) {
                (0 | 1, _) => again.raw[rng.pick(&[0, 31, 32, 63, 63])] ^= 1 << rng.below(8),
                (2, None) => again.ondex = Some(0),
                (2, Some(0)) => again.ondex = None,
                _ => {}
            }
            let room = 47 - list.len();
            for _ in 0..rng.pick(&[0, 1, room / 2, room, room]) {
                let mut stranger = make::sign(rng, again.index as usize, None);
                stranger.verified = false;
                let place = rng.below(list.len() + 1);
                list.insert(place, stranger);
            }
            list.push(again);
        }
        22 if places > 0 => {
            // From a key on nobody signs, so that a later clause is the first that is short.
            let from = rng.below(places) as u32;
            list.iter_mut().for_each(|one| one.verified &= one.index < from);
        }
        23 | 24 if ondexes > 0 => {
            // The same of what was promised.
            let from = rng.below(ondexes) as u32;
            list.iter_mut().for_each(|one| one.matches &= one.ondex < Some(from));
        }
        _ => rng.shuffle(list),
    }
    list.truncate(48);
}

fn repeat_one(rng: &mut Rng, list: &mut Vec<Item>) {
    if list.is_empty() {
        list.push(make::witness(rng));
    }
    let at = rng.below(list.len());
    let place = rng.below(list.len() + 1);
    list.insert(place, list[at]);
    list.truncate(16);
}

/// Puts a transferable witness in.
fn transferable(rng: &mut Rng, list: &mut Vec<Item>) {
    if list.is_empty() || rng.one_in(3) {
        let place = rng.below(list.len() + 1);
        list.insert(place, item(b'D', rng.below(60)));
    } else {
        let at = rng.below(list.len());
        list[at][0] = b'D';
    }
    list.truncate(16);
}

fn wrong_toad(rng: &mut Rng, witnesses: usize) -> u32 {
    let count = witnesses as u32;
    rng.pick(&[0, 0, count + 1, count + 1, count, 1, 17, 256 + count, 65_536 + count, u32::MAX])
}

/// Spoils the event once. The state is the held one, if there is one.
pub fn event(rng: &mut Rng, record: &mut Record, state: Option<&Snapshot>) {
    match record {
        Record::Inception(r) => inception(rng, r),
        Record::Rotation(r) => rotation(rng, r, state),
        Record::Interaction(r) => interaction(rng, r, state),
        _ => {}
    }
}

fn inception(rng: &mut Rng, r: &mut Inception) {
    match rng.below(36) {
        0 | 1 => r.sn = wrong_sn(rng, 0),
        2 => r.keys = vec![],
        3 => r.keys.push(make::key(rng)),
        4 => r.threshold = Threshold::Simple(rng.pick(&[0, 2, 1])),
        5 => r.threshold = Threshold::Weighted(vec![vec![(1, 1)]]),
        6 | 7 if !r.keys.is_empty() => r.keys[0] = twin(rng, &r.keys[0], b"BD"),
        8 => r.next.push(make::digest(rng)),
        9 => r.witnesses.push(make::witness(rng)),
        10 => r.anchors = rng.pick(&[1, 0, u32::MAX, 1 << 31]),
        11 | 12 => r.prefix = item(rng.pick(b"BDE"), rng.below(400)),
        13 | 30 => {
            // A basic prefix that is right but for what comes next.
            r.prefix[0] = rng.pick(b"BBD");
            r.keys = vec![r.prefix];
            r.threshold = Threshold::Simple(1);
            if rng.one_in(2) {
                r.next = vec![];
            }
            if rng.one_in(2) {
                r.witnesses = vec![];
            }
            r.anchors = rng.below(2) as u32;
        }
        14 | 15 => repeat_one(rng, &mut r.witnesses),
        16 | 17 => transferable(rng, &mut r.witnesses),
        18..=20 => r.threshold = bad_threshold(rng, r.keys.len()),
        21..=23 => r.next_threshold = bad_threshold(rng, r.next.len()),
        24 => r.next = vec![],
        25 | 26 => r.toad = wrong_toad(rng, r.witnesses.len()),
        27 | 28 => signatures(rng, &mut r.receipts, r.witnesses.len(), 0),
        29 => r.config.push(1),
        _ => signatures(rng, &mut r.signatures, r.keys.len(), 2),
    }
    r.keys.truncate(16);
    r.next.truncate(16);
    r.witnesses.truncate(16);
    r.config.truncate(8);
}

fn rotation(rng: &mut Rng, r: &mut Rotation, state: Option<&Snapshot>) {
    let none = Vec::new();
    let current = state.map_or(&none, |state| &state.witnesses);
    let old_next = state.map_or(0, |state| state.next.len());
    match rng.below(45) {
        0 => r.prefix = twin(rng, &r.prefix, b"BDEFGHI"),
        1 | 2 => r.sn = wrong_sn(rng, r.sn),
        3 | 4 => r.prior = twin(rng, &r.prior, b"EFGHI"),
        5..=7 => r.threshold = bad_threshold(rng, r.keys.len()),
        8..=10 => r.next_threshold = bad_threshold(rng, r.next.len()),
        11 => r.keys = vec![],
        12 => r.next = vec![],
        13 => r.threshold = Threshold::Weighted(vec![vec![rng.pick(&make::HEAVY); r.keys.len()]]),
        14 | 15 => repeat_one(rng, &mut r.removals),
        16 | 17 => repeat_one(rng, &mut r.additions),
        18 | 19 => {
            // In both lists.
            if let Some(one) = r.removals.first().or(current.first()).copied() {
                let place = rng.below(r.additions.len() + 1);
                r.additions.insert(place, one);
                if !r.removals.contains(&one) {
                    r.removals.push(one);
                }
            }
        }
        20 | 21 => transferable(rng, &mut r.removals),
        22 | 23 => transferable(rng, &mut r.additions),
        24 | 35 => {
            // One that is no witness, at any place of the list or behind it.
            let at = rng.below(r.removals.len() + 1);
            match r.removals.get(at) {
                Some(cut) => r.removals[at] = twin(rng, cut, b"B"),
                None => r.removals.push(make::witness(rng)),
            }
        }
        25 | 26 | 37 => {
            if !current.is_empty() {
                let place = rng.below(r.additions.len() + 1);
                r.additions.insert(place, rng.pick(current));
            }
        }
        27..=29 => {
            // A resulting list of about 16 members.
            let kept = current.iter().filter(|one| !r.removals.contains(one)).count();
            let wanted = rng.range(14, 19).saturating_sub(kept);
            for number in 100..132 {
                if r.additions.len() < wanted {
                    r.additions.push(item(b'B', number));
                }
            }
            r.receipts = make::receipts(rng, kept + r.additions.len().min(16));
        }
        30 => {
            r.removals = current.clone();
            r.removals.dedup();
        }
        31 | 32 | 36 => {
            let kept = current.iter().filter(|one| !r.removals.contains(one)).count();
            r.toad = wrong_toad(rng, kept + r.additions.len());
        }
        33 | 34 => {
            let places = current.len() + r.additions.len();
            signatures(rng, &mut r.receipts, places, 0);
        }
        _ => signatures(rng, &mut r.signatures, r.keys.len(), old_next),
    }
    r.additions.truncate(16);
    r.removals.truncate(16);
}

fn interaction(rng: &mut Rng, r: &mut Interaction, state: Option<&Snapshot>) {
    let (keys, witnesses, next) = state
        .map_or((0, 0, 0), |state| (state.keys.len(), state.witnesses.len(), state.next.len()));
    match rng.below(12) {
        0 => r.prefix = twin(rng, &r.prefix, b"BDEFGHI"),
        1 | 2 => r.sn = wrong_sn(rng, r.sn),
        3 | 4 => r.prior = twin(rng, &r.prior, b"EFGHI"),
        5..=7 => signatures(rng, &mut r.receipts, witnesses, 0),
        8 => r.receipts.clear(),
        _ => signatures(rng, &mut r.signatures, keys, next),
    }
}
