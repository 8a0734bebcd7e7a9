//! Makes requests for direct calls, in the syntax of oracle/calls.rs.
use oracle_lib::hex;
use oracle_lib::record::*;
use oracle_lib::writer;

use crate::make::{self, PLAIN, Taste};
use crate::rng::Rng;
use crate::spoil;

pub fn request(rng: &mut Rng) -> String {
    let taste = Taste { heavy: rng.one_in(2), big: rng.one_in(5), ..PLAIN };
    let keys = rng.range(0, if taste.big { 16 } else { 5 });
    let shape = |rng: &mut Rng| {
        let threshold = if rng.one_in(4) {
            spoil::bad_threshold(rng, keys)
        } else {
            make::threshold(rng, taste, keys)
        };
        threshold_text(&threshold)
    };
    match rng.below(14) {
        0 => format!("ample {}", count(rng)),
        1 => format!("exact {} {}", rng.below(19), rng.below(18)),
        2 => format!("exact {} {}", rng.next() as u32, count(rng)),
        3 => format!("sorted {}{}", shape(rng), places(rng, keys, true)),
        4 => format!("any {}{}", shape(rng), places(rng, keys, false)),
        5 => format!("attainable {} {keys}", shape(rng)),
        6 => format!("wellformed {} {keys}", shape(rng)),
        7 => format!("witnesses {}", members(rng, 5)),
        8 => format!("deltas {} {}", members(rng, 4), members(rng, 4)),
        9 => {
            let most = if rng.one_in(3) { 16 } else { 5 };
            format!("members {} {} {}", members(rng, most), members(rng, 4), members(rng, most))
        }
        10 => {
            let start = make::inception(rng, PLAIN);
            let mut record = Record::Inception(start);
            for _ in 0..rng.below(3) {
                spoil::event(rng, &mut record, None);
            }
            let Record::Inception(r) = record else { unreachable!() };
            format!(
                "identity {} {} {} {} {} {}",
                item_text(&r.prefix),
                list_text(&r.keys),
                threshold_text(&r.threshold),
                list_text(&r.next),
                list_text(&r.witnesses),
                r.anchors
            )
        }
        11 => {
            let sigs = signatures(rng, keys, keys);
            format!("signatures {} {} {sigs}", keys_text(rng, keys), shape(rng))
        }
        12 => {
            let next: Vec<Item> = (0..keys).map(|_| make::digest(rng)).collect();
            let own = rng.range(1, 5);
            let sigs = signatures(rng, own, keys);
            let (next_shape, next) = (shape(rng), list_text(&next));
            format!("opening {next} {next_shape} {} s1 {sigs}", keys_text(rng, own))
        }
        _ if rng.one_in(3) => save(rng),
        _ => {
            let sigs = signatures(rng, keys, 0);
            format!("receipts {} {} {sigs}", rng.below(keys + 2), keys_text(rng, keys))
        }
    }
}

fn count(rng: &mut Rng) -> u64 {
    match rng.below(4) {
        0 => rng.pick(&[0, 1, 6_442_450_942, 6_442_450_943, 6_442_450_944, u64::MAX, u64::MAX - 1]),
        1 => rng.next() >> rng.below(64),
        _ => rng.below(40) as u64,
    }
}

fn places(rng: &mut Rng, keys: usize, rising: bool) -> String {
    let mut list: Vec<u32> = (0..keys + 1).map(|place| place as u32).collect();
    list.retain(|_| rng.percent(70));
    if rng.one_in(4) {
        list.push(rng.pick(&[16, 17, u32::MAX, 100]));
    }
    if !rising || rng.one_in(3) {
        let again = rng.below(3).min(list.len());
        list.extend_from_within(..again);
        // Equal places side by side, or any order.
        if rng.one_in(3) {
            list.sort_unstable();
        } else {
            rng.shuffle(&mut list);
        }
    }
    list.iter().map(|place| format!(" {place}")).collect()
}

fn members(rng: &mut Rng, most: usize) -> String {
    let few = rng.one_in(2);
    let list: Vec<Item> = (0..rng.range(0, most))
        .map(|_| {
            let code = if rng.one_in(12) { b'D' } else { b'B' };
            make::item(code, if few { rng.below(6) } else { rng.below(60) })
        })
        .collect();
    list_text(&list)
}

fn signatures(rng: &mut Rng, places: usize, ondexes: usize) -> String {
    let mut list: Vec<Signature> = Vec::new();
    for _ in 0..rng.range(0, 8) {
        let mut one = if !list.is_empty() && rng.one_in(3) {
            rng.pick(&list)
        } else {
            let ondex = rng.one_in(2).then(|| rng.below(ondexes + 1));
            let index = rng.below(places + 1);
            make::sign(rng, index, ondex)
        };
        one.verified = !rng.one_in(4);
        one.matches = !rng.one_in(4);
        list.push(one);
    }
    if list.is_empty() {
        return "-".into();
    }
    let text = |s: &Signature| {
        let ondex = s.ondex.map_or("-".into(), |place| place.to_string());
        let (yes, match_) = (u8::from(s.verified), u8::from(s.matches));
        format!("{}.{}.{ondex}.{}.{yes}.{match_}", s.code, s.index, hex(&s.raw))
    };
    list.iter().map(text).collect::<Vec<_>>().join(",")
}

fn save(rng: &mut Rng) -> String {
    if rng.one_in(5) {
        return format!("save - {}", rng.below(2));
    }
    let state = make::odd_snapshot(rng, PLAIN);
    let bytes = writer::whole(&Record::Snapshot(state)).bytes;
    let room = rng.pick(&[0, 1, bytes.len() - 1, bytes.len(), bytes.len() + 1, 4000]);
    format!("save {} {room}", hex(&bytes))
}

fn keys_text(rng: &mut Rng, count: usize) -> String {
    let list: Vec<Item> = (0..count).map(|_| make::key(rng)).collect();
    list_text(&list)
}

fn item_text(item: &Item) -> String {
    format!("{}{}", char::from(item[0]), hex(&item[1..]))
}

fn list_text(list: &[Item]) -> String {
    if list.is_empty() {
        return "-".into();
    }
    list.iter().map(item_text).collect::<Vec<_>>().join(",")
}

fn threshold_text(threshold: &Threshold) -> String {
    match threshold {
        Threshold::Simple(required) => format!("s{required}"),
        Threshold::Weighted(clauses) if clauses.is_empty() => "w-".into(),
        Threshold::Weighted(clauses) => {
            let weight = |(n, d): &(u64, u64)| format!("{n}/{d}");
            let clause =
                |list: &Vec<(u64, u64)>| list.iter().map(weight).collect::<Vec<_>>().join(",");
            format!("w{}", clauses.iter().map(clause).collect::<Vec<_>>().join(";"))
        }
    }
}
