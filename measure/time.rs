//! Times the proved machine beside the given Rust, on the same bytes, in one run. Run it by measure/time.
//!
//! Read: a record's bytes to what is judged (ours: its marks; the Rust: its event and its signatures). Judge: that to the answer
//! (ours: a rotation's new list too; the Rust: the next state too). Device: keystate_offer, which reads the state's bytes and the
//! record's, judges, and writes the next state's bytes; beside it the Rust's reading, judging and making of a next state that it
//! owns. Each round runs each of them in turn, so that a busy machine hits all alike.
use std::hint::black_box;
use std::time::Instant;

use keri::{KeyState, KeyStateSnapshot, Signed};
use keri_events::KeriEvent;
use oracle_lib::record::{Record, Signature};
use oracle_lib::{rust, writer};

mod lent;
mod records;
use records::*;

unsafe extern "C" {
    fn timing_read(mark: u16, body: *const u8, len: usize, rounds: u64) -> u64;
    fn timing_judge(state: *const u8, used: usize, mark: u16, body: *const u8, len: usize, rounds: u64) -> u64;
    fn keystate_offer(state: *mut u8, capacity: usize, used: *mut usize, input: *const u8, len: usize, details: *mut [u64; 4]) -> u8;
}

// ---- The given Rust

fn signed_parts(record: &Record) -> (&[Signature], &[Signature]) {
    match record {
        Record::Inception(r) => (&r.signatures, &r.receipts),
        Record::Rotation(r) => (&r.signatures, &r.receipts),
        Record::Interaction(r) => (&r.signatures, &r.receipts),
        _ => (&[], &[]),
    }
}

/// `ingest` takes its state by value. A view of the held one is made for each call, and its time is taken off again.
fn judge<'e>(held: Option<&'e KeyStateSnapshot>, signed: &Signed<'e>) {
    match held {
        None => drop(black_box(KeyState::incept(black_box(signed)).expect("accepted"))),
        Some(held) => {
            let mut view = held.view();
            view.ingest_mut(black_box(signed)).expect("accepted");
            drop(black_box(view));
        }
    }
}

fn read(bytes: &[u8]) -> lent::Lent<'_> {
    let bytes = black_box(bytes);
    lent::read([bytes[0], bytes[1]], &bytes[4..]).expect("a good record")
}

/// All of it: read, judged, and a next state that outlives the record's bytes. An interaction takes the held state with it, so it
/// gets a copy, whose time is taken off again.
fn whole(bytes: &[u8], held: Option<&KeyStateSnapshot>) -> KeyStateSnapshot {
    let lent::Lent { event, signatures, receipts } = read(bytes);
    let signed = Signed::from_host_asserted_parts(&event, b"", signatures, receipts);
    let judged = match held.map(KeyStateSnapshot::view) {
        None => KeyState::incept(&signed),
        Some(view) => view.ingest(&signed),
    };
    match (judged.expect("accepted"), &event, held) {
        (_, KeriEvent::Interaction(_), Some(held)) => held.clone().advance(&event),
        (state, ..) => KeyStateSnapshot::from(&state),
    }
}

// ---- Timing

/// Nanoseconds a call: the median of the rounds and the least.
#[derive(Clone, Copy)]
struct Time {
    median: f64,
    least: f64,
}

fn timed(rounds: usize, calls: u64, parts: &mut [Box<dyn FnMut(u64) + '_>]) -> Vec<Time> {
    let mut times = vec![Vec::with_capacity(rounds); parts.len()];
    for part in parts.iter_mut() {
        part(calls);
    }
    for _ in 0..rounds {
        for (part, times) in parts.iter_mut().zip(&mut times) {
            let start = Instant::now();
            part(calls);
            times.push(start.elapsed().as_nanos() as f64 / calls as f64);
        }
    }
    let of = |mut times: Vec<f64>| {
        times.sort_by(f64::total_cmp);
        Time { median: times[times.len() / 2], least: times[0] }
    };
    times.into_iter().map(of).collect()
}

/// Ours and the Rust's: read, judge; then the Rust's whole and the device's call.
fn shape(rounds: usize, before: Option<Size>, record: &Record) -> Vec<Time> {
    let bytes = writer::whole(record).bytes;
    let body = &bytes[4..];
    let mark = u16::from_be_bytes([bytes[0], bytes[1]]);
    let held: Option<KeyStateSnapshot> = before.map(|z| {
        let first = inception(z);
        let (s, r) = signed_parts(&first);
        let event = rust::event(&first);
        let signed = Signed::from_host_asserted_parts(&event, b"", rust::sigers(s), rust::sigers(r));
        KeyStateSnapshot::from(&KeyState::incept(&signed).expect("a good inception"))
    });
    let state = held.as_ref().map_or(vec![], |held| writer::whole(&Record::Snapshot(rust::snapshot_back(held))).bytes);
    let held_body = if state.is_empty() { &state[..] } else { &state[4..] };
    let event = rust::event(record);
    let (s, r) = signed_parts(record);
    let signed = Signed::from_host_asserted_parts(&event, b"", rust::sigers(s), rust::sigers(r));
    let mut buffer = vec![0u8; 2285];
    let calls = if bytes.len() < 1000 { 1000 } else { 100 };
    let mut times = timed(rounds, calls, &mut [
        // SAFETY: pointers and lengths are those of live vectors that do not overlap.
        Box::new(|n| assert!(unsafe { timing_read(mark, body.as_ptr(), body.len(), n) } < 3)),
        Box::new(|n| (0..n).for_each(|_| drop(black_box(read(&bytes))))),
        Box::new(|n| assert_eq!(unsafe { timing_judge(held_body.as_ptr(), held_body.len(), mark, body.as_ptr(), body.len(), n) }, 0)),
        Box::new(|n| (0..n).for_each(|_| judge(held.as_ref(), &signed))),
        Box::new(|n| (0..n).for_each(|_| drop(black_box(whole(&bytes, held.as_ref()))))),
        Box::new(|n| (0..n).for_each(|_| {
            buffer[..state.len()].copy_from_slice(&state);
            let (mut used, mut details) = (state.len(), [0; 4]);
            assert_eq!(unsafe { keystate_offer(buffer.as_mut_ptr(), 2285, &mut used, bytes.as_ptr(), bytes.len(), &mut details) }, 0);
        })),
        Box::new(|n| (0..n).for_each(|_| drop(black_box(black_box(&held).as_ref().map(KeyStateSnapshot::view))))),
        Box::new(|n| (0..n).for_each(|_| drop(black_box(black_box(&held).clone())))),
    ]);
    let (copy, view) = (times.pop().expect("the copy's time"), times.pop().expect("the view's time"));
    let mut less = |place: usize, time: Time| {
        times[place].median -= time.median;
        times[place].least -= time.least;
    };
    less(3, view);
    if matches!(record, Record::Interaction(_)) {
        less(4, copy);
    }
    times
}

fn pair(ours: Time, rust: Time) -> String {
    format!("{:.0} ({:.0}) | {:.0} ({:.0}) | {:.2} ({:.2})", ours.median, ours.least, rust.median, rust.least, ours.median / rust.median, ours.least / rust.least)
}

fn shapes(rounds: usize) {
    println!("Nanoseconds a call: the median of {rounds} rounds (the least).\n");
    println!("| Shape | read: ours | Rust | ratio | judge: ours | Rust | ratio | device's call | the Rust's whole | ratio |");
    println!("|---|---|---|---|---|---|---|---|---|---|");
    let widest = |likeness| Size { likeness, ..WIDEST };
    let sizes = [
        ("one key", ONE),
        ("one key, its own prefix", Size { basic: true, ..ONE }),
        ("widest", WIDEST),
        ("widest, alike", widest(Likeness::Alike)),
        ("widest, copies", widest(Likeness::Copies)),
    ];
    for (name, size) in sizes {
        for (kind, before, record) in [("IC", None, inception(size)), ("RO", Some(size), rotation(size, 1)), ("IX", Some(size), interaction(size, 1))] {
            let t = shape(rounds, before, &record);
            println!("| {name}, {kind} | {} | {} | {} |", pair(t[0], t[1]), pair(t[2], t[3]), pair(t[5], t[4]));
        }
    }
}

/// Rotations that grow in one respect: judged, the least of the rounds.
fn growth(rounds: usize) {
    println!("\nGrowth: a rotation, nanoseconds, the least of {rounds} rounds.\n");
    println!("| What grows | how many | judge: ours | Rust | ratio | device's call | the Rust's whole | ratio |");
    println!("|---|---|---|---|---|---|---|---|");
    let row = |what: &str, count: usize, size: Size| {
        let t = shape(rounds, Some(size), &rotation(size, 1));
        let (judge, call) = (t[2].least / t[3].least, t[5].least / t[4].least);
        println!("| {what} | {count} | {:.0} | {:.0} | {judge:.2} | {:.0} | {:.0} | {call:.2} |", t[2].least, t[3].least, t[5].least, t[4].least);
    };
    for n in [1, 6, 12, 24, 48] {
        row("signatures (1 key)", n, Size { signatures: n, ..ONE });
    }
    for n in [1, 2, 4, 8, 16] {
        row("keys, each with its signature and a weight", n, Size { keys: n, signatures: n, weighted: n > 8 , ..ONE });
    }
    for n in [0, 2, 4, 8, 16] {
        row("witnesses, all replaced, each with a receipt", n, Size { witnesses: n, receipts: n, change: n, ..ONE });
    }
}

fn main() {
    let rounds = std::env::args().nth(1).map_or(301, |n| n.parse().expect("measure/time [ROUNDS]"));
    shapes(rounds);
    growth(rounds.min(101));
}
