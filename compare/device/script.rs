//! Writes calls of the device's archive for a stream on standard input, each with what the given Rust says of it:
//! replay.c makes the calls and compares.
//!
//! ```text
//! script NAME                every record offered, then every record folded
//! script NAME --spoil N      the same with one expected bit turned: replay.c has to notice
//! ```
//! A call as bytes, numbers big-endian: kind, capacity u16, used u16, the place of a state byte that is turned first
//! (u16, 65535 for none) and the mask that turns it, input (u32 and bytes); then what is expected: number, a u128,
//! b u128, value u32, state (u16 and bytes). Kinds: N a new life, with an empty buffer; O and F offer and fold, and
//! the life goes on from there; o and f the same on a copy; a ask; l length; t attainable, with the keys as capacity.
//! 65535 used bytes, or as many keys, stand for the greatest usize.
use std::io::{self, Read, Write};

use oracle_lib::holder::Holder;
use oracle_lib::reader::{self, Head};
use oracle_lib::record::*;
use oracle_lib::{rust, writer};

/// KEYSTATE_STATE_BYTES: document 01's longest KS, 2,281, with its lead.
const ROOM: usize = 2285;
/// So many bytes of the stream stand behind a record in some calls: they are not to be looked at.
const BEHIND: usize = 24;
const GREATEST: usize = 0xffff;

#[derive(Clone, Copy)]
struct Call<'a> {
    kind: u8,
    capacity: usize,
    used: usize,
    patch: Option<(usize, u8)>,
    input: &'a [u8],
}

/// `value` is for length and attainable alone. `state` is the state behind the call: of a copy only where the call
/// is accepted, since a refusal leaves all bytes as they were.
#[derive(Default)]
struct Expected {
    answer: Option<Answer>,
    value: usize,
    state: Vec<u8>,
}

#[derive(Default)]
struct Script {
    bytes: Vec<u8>,
    /// Where expected bytes stand, for --spoil.
    expected: Vec<(usize, usize)>,
}

impl Script {
    fn number(&mut self, width: usize, value: usize) {
        self.bytes.extend(&value.to_be_bytes()[8 - width..]);
    }

    fn expect(&mut self, bytes: &[u8]) {
        if !bytes.is_empty() {
            self.expected.push((self.bytes.len(), bytes.len()));
        }
        self.bytes.extend(bytes);
    }

    fn put(&mut self, call: Call, expected: &Expected) {
        let (at, mask) = call.patch.unwrap_or((0xffff, 0));
        self.bytes.push(call.kind);
        self.number(2, call.capacity);
        self.number(2, call.used);
        self.number(2, at);
        self.bytes.push(mask);
        self.number(4, call.input.len());
        self.bytes.extend(call.input);
        match expected.answer {
            Some(answer) => {
                self.expect(&[u8::try_from(answer.number).expect("a small number")]);
                self.expect(&[answer.a.to_be_bytes(), answer.b.to_be_bytes()].concat());
            }
            None => self.bytes.extend([0; 33]),
        }
        let value = u32::try_from(expected.value).expect("a length").to_be_bytes();
        if matches!(call.kind, b'l' | b't') {
            self.expect(&value)
        } else {
            self.bytes.extend(value)
        }
        self.number(2, expected.state.len());
        self.expect(&expected.state);
    }

    /// Turns one expected bit.
    fn spoil(&mut self, rng: &mut Rng) {
        let (start, length) = self.expected[rng.below(self.expected.len())];
        self.bytes[start + rng.below(length)] ^= 1 << rng.below(8);
    }
}

/// SplitMix64: chooses places and lengths.
struct Rng(u64);

impl Rng {
    fn below(&mut self, limit: usize) -> usize {
        self.0 = self.0.wrapping_add(0x9e37_79b9_7f4a_7c15);
        let mut z = self.0;
        z = (z ^ (z >> 30)).wrapping_mul(0xbf58_476d_1ce4_e5b9);
        z = (z ^ (z >> 27)).wrapping_mul(0x94d0_49bb_1331_11eb);
        ((z ^ (z >> 31)) % limit as u64) as usize
    }
}

/// The state that bytes are: none, a KS and nothing else, or why not, by document 01's reader.
fn kept(bytes: &[u8]) -> Result<Holder, u32> {
    let mut holder = Holder::default();
    match reader::head(bytes) {
        Head::End => {}
        Head::Truncated => return Err(1),
        Head::Whole { mark: [b'K', b'S'], body, rest } => {
            let record = reader::body(*b"KS", body)?;
            if !rest.is_empty() {
                return Err(3);
            }
            assert_eq!(holder.offer(&record).number, 0, "an empty holder takes a KS");
        }
        Head::Whole { .. } => return Err(2),
    }
    Ok(holder)
}

/// Offers or folds the first record. In the fold a KS is no event: 2.
fn first(holder: &mut Holder, fold: bool, input: &[u8]) -> Answer {
    let Head::Whole { mark, body, .. } = reader::head(input) else { return Answer::plain(1) };
    if fold && mark == *b"KS" {
        return Answer::plain(2);
    }
    match reader::body(mark, body) {
        Err(number) => Answer::plain(number),
        Ok(record) if fold => holder.fold(&record),
        Ok(record) => holder.offer(&record),
    }
}

/// How many bytes the first record takes; all of them where it is cut short.
fn length(input: &[u8]) -> usize {
    match reader::head(input) {
        Head::Whole { rest, .. } => input.len() - rest.len(),
        _ => input.len(),
    }
}

fn asked(kept: Result<Holder, u32>) -> Answer {
    match kept.map(|holder| holder.state()) {
        Err(number) => Answer::plain(number),
        Ok(None) => Answer::plain(8),
        Ok(Some(state)) => Answer::with(0, state.sn, 0),
    }
}

fn saved(holder: &Holder) -> Vec<u8> {
    holder.save(ROOM).unwrap_or_default()
}

/// One holder's life beside the device's buffer.
struct Life<'a> {
    script: &'a mut Script,
    rng: &'a mut Rng,
    holder: Holder,
    /// The bytes of `holder`'s state.
    state: Vec<u8>,
    fold: bool,
}

impl Life<'_> {
    fn call<'b>(&self, kind: u8, input: &'b [u8]) -> Call<'b> {
        Call { kind, capacity: ROOM, used: self.state.len(), patch: None, input }
    }

    fn begin(&mut self, name: &str) {
        self.holder = Holder::default();
        self.state.clear();
        self.script.put(self.call(b'N', name.as_bytes()), &Expected::default());
    }

    /// The buffer's used bytes as a call finds them. What stands behind the state does not matter: it is left over.
    fn found(&self, call: Call) -> Result<Holder, u32> {
        if call.used > call.capacity {
            return Err(1);
        }
        let mut bytes = self.state.clone();
        bytes.resize(call.used, 0);
        if let Some((at, mask)) = call.patch {
            bytes[at] ^= mask;
        }
        kept(&bytes)
    }

    /// A call on a copy.
    fn trial(&mut self, call: Call) {
        let mut expected = Expected::default();
        let answer = match self.found(call) {
            Err(number) => Answer::plain(number),
            Ok(mut holder) => match first(&mut holder, self.fold, call.input) {
                Answer { number: 0, .. } => match holder.save(call.capacity) {
                    Ok(state) => {
                        expected.state = state;
                        Answer::ACCEPTED
                    }
                    Err(no_room) => no_room,
                },
                refused => refused,
            },
        };
        expected.answer = Some(answer);
        self.script.put(call, &expected);
    }

    fn length(&mut self, input: &[u8]) {
        let expected = Expected { value: length(input), ..Expected::default() };
        self.script.put(self.call(b'l', input), &expected);
    }

    fn ask(&mut self, call: Call) {
        let answer = Some(asked(self.found(call)));
        self.script.put(Call { kind: b'a', input: &[], ..call }, &Expected { answer, ..Expected::default() });
    }

    /// The record on buffers that are too short, or just not; and on bytes that are no state, or another one.
    fn trials(&mut self, kind: u8, record: &[u8]) {
        let plain = self.call(kind, record);
        let used = plain.used;
        let mut after = self.holder.clone();
        self.trial(plain);
        self.trial(Call { capacity: used, ..plain });
        if first(&mut after, self.fold, record).number == 0 {
            let needed = saved(&after).len();
            for capacity in [needed - 1, needed, used + self.rng.below(needed)] {
                self.trial(Call { capacity: capacity.min(ROOM), ..plain });
            }
        }
        self.trial(Call { capacity: ROOM + 20, ..plain });
        for above in [ROOM + 1 + self.rng.below(9), GREATEST] {
            self.trial(Call { used: above, ..plain });
        }
        let cut = &record[..self.rng.below(record.len())];
        self.trial(Call { input: cut, ..plain });
        self.length(cut);
        if used > 0 {
            let patch = Some((self.rng.below(used), 1 << self.rng.below(8)));
            for call in [
                Call { capacity: used - 1, ..plain },
                Call { used: self.rng.below(used), ..plain },
                Call { used: (used + 1 + self.rng.below(9)).min(ROOM), ..plain },
                Call { patch, ..plain },
                Call { patch: Some((self.rng.below(4), 1 << self.rng.below(8))), ..plain },
            ] {
                self.trial(call);
                if call.used <= call.capacity {
                    self.ask(call);
                }
            }
        }
    }

    /// The record on the buffer that the life goes on with.
    fn step(&mut self, kind: u8, input: &[u8]) {
        let call = self.call(kind, input);
        let answer = first(&mut self.holder, kind == b'F', input);
        self.state = saved(&self.holder);
        let expected = Expected { answer: Some(answer), value: 0, state: self.state.clone() };
        self.script.put(call, &expected);
        self.ask(self.call(b'a', &[]));
    }

    fn run(&mut self, name: &str, mut stream: &[u8]) {
        let (trial, step) = if self.fold { (b'f', b'F') } else { (b'o', b'O') };
        self.begin(name);
        self.trial(self.call(trial, &[]));
        self.length(&[]);
        while !stream.is_empty() {
            let (record, rest) = stream.split_at(length(stream));
            let with_more = &stream[..record.len() + rest.len().min(BEHIND)];
            self.length(record);
            self.length(with_more);
            self.trials(trial, record);
            self.step(step, with_more);
            if self.fold {
                self.load(name, record);
            } else {
                self.thresholds(record);
            }
            stream = rest;
        }
    }

    /// As in the oracle's fold, a KS starts a new run with its state: here it is offered to an empty buffer.
    fn load(&mut self, name: &str, record: &[u8]) {
        let Head::Whole { mark: [b'K', b'S'], body, .. } = reader::head(record) else { return };
        if reader::body(*b"KS", body).is_ok() {
            self.begin(name);
            self.step(b'O', record);
        }
    }

    /// The thresholds that stand in a record, each whole, cut by a byte and with a byte more: both are 3.
    fn thresholds(&mut self, record: &[u8]) {
        let Head::Whole { mark, body, .. } = reader::head(record) else { return };
        let pairs = match reader::body(mark, body) {
            Ok(Record::Inception(r)) => [(r.threshold, r.keys.len()), (r.next_threshold, r.next.len())],
            Ok(Record::Rotation(r)) => [(r.threshold, r.keys.len()), (r.next_threshold, r.next.len())],
            Ok(Record::Snapshot(r)) => [(r.threshold, r.keys.len()), (r.next_threshold, r.next.len())],
            _ => return,
        };
        for (threshold, count) in pairs {
            let mut out = writer::Writer::default();
            out.threshold(&threshold);
            let others = [self.rng.below(17), 17 + self.rng.below(999)];
            for keys in [count, count.saturating_sub(1), others[0], others[1], GREATEST] {
                let number = if keys > MAX_ITEMS { 4 } else { 0 };
                let yes = number == 0 && rust::threshold(&threshold).satisfied_by(0..keys as u32);
                self.attainable(&out.bytes, keys, number, yes);
            }
            self.attainable(&out.bytes[..out.bytes.len() - 1], count, 3, false);
            self.attainable(&[&out.bytes[..], &[0]].concat(), count, 3, false);
        }
    }

    fn attainable(&mut self, threshold: &[u8], keys: usize, number: u32, yes: bool) {
        let call = Call { capacity: keys, ..self.call(b't', threshold) };
        let answer = Some(Answer::plain(number));
        self.script.put(call, &Expected { answer, value: usize::from(yes), state: vec![] });
    }
}

fn main() {
    let words: Vec<String> = std::env::args().skip(1).collect();
    let words: Vec<&str> = words.iter().map(String::as_str).collect();
    let (name, spoil) = match *words.as_slice() {
        [name] => (name, None),
        [name, "--spoil", which] => (name, Some(which.parse().expect("a number"))),
        _ => panic!("script NAME [--spoil N]"),
    };
    let mut stream = Vec::new();
    io::stdin().read_to_end(&mut stream).expect("standard input");
    let mut script = Script::default();
    let mut rng = Rng(stream.len() as u64);
    for (fold, kind) in [(false, "offered"), (true, "folded")] {
        let (script, rng, holder) = (&mut script, &mut rng, Holder::default());
        let mut life = Life { script, rng, holder, state: vec![], fold };
        life.run(&format!("{name}, {kind}"), &stream);
    }
    if let Some(which) = spoil {
        script.spoil(&mut Rng(which));
    }
    if io::stdout().lock().write_all(&script.bytes).is_err() {
        // replay ended at a difference, and says so itself
        std::process::exit(1);
    }
}
