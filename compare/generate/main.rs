//! The generator: prints a stream of house records from a seed.
//!
//! ```text
//! generate SEED COUNT [STYLE]     about COUNT records; without a style the seed chooses one
//! generate SEED COUNT calls       COUNT requests for direct calls
//! generate SEED COUNT named       document 01's unstarred cases, whatever the count
//! generate styles                 the names of the styles
//! ```
//! It asks the oracle on the way, so that it always knows the held state: a stream is one
//! holder's life, and most of its records are made for the state that is held just then.
mod calls;
mod damage;
mod make;
mod rng;
mod spoil;

use std::io::{self, Write};

use make::{PLAIN, Taste};
use oracle_lib::holder::Holder;
use oracle_lib::reader::{self, Head};
use oracle_lib::record::*;
use oracle_lib::writer;
use rng::Rng;

const STYLES: [&str; 10] =
    ["start", "chain", "odd", "limits", "heavy", "estonly", "closed", "bytes", "sweep", "tiny"];

struct Stream {
    rng: Rng,
    taste: Taste,
    holder: Holder,
    out: Vec<u8>,
    count: usize,
}

impl Stream {
    /// Appends the bytes and lets the oracle take the records in them.
    fn put(&mut self, bytes: &[u8]) {
        self.out.extend(bytes);
        let mut rest = bytes;
        while let Head::Whole { mark, body, rest: after } = reader::head(rest) {
            if let Ok(record) = reader::body(mark, body) {
                self.holder.offer(&record);
            }
            self.count += 1;
            rest = after;
        }
        assert!(rest.is_empty(), "only the end of a stream may be cut");
    }

    fn put_record(&mut self, record: &Record) {
        self.put(&writer::whole(record).bytes);
    }

    /// An event that the held state accepts, if one can be found.
    fn event(&mut self) -> Record {
        let rng = &mut self.rng;
        let record = match self.holder.state() {
            None => Record::Inception(make::inception(rng, self.taste)),
            // Under EstOnly an interaction is 37 and nothing more.
            Some(state) if rng.percent(if state.config.contains(&1) { 90 } else { 60 }) => {
                Record::Rotation(make::rotation(rng, self.taste, &state))
            }
            Some(state) => Record::Interaction(make::interaction(rng, &state)),
        };
        make::settle(rng, &self.holder, record)
    }

    /// A good event with one to three faults.
    fn spoiled(&mut self) -> Record {
        let mut record = self.event();
        let state = self.holder.state();
        let faults = self.rng.pick(&[1, 1, 1, 2, 2, 3]);
        for _ in 0..faults {
            spoil::event(&mut self.rng, &mut record, state.as_ref());
        }
        record
    }

    /// A record that is out of place whatever it holds.
    fn misplaced(&mut self) -> Vec<u8> {
        let rng = &mut self.rng;
        let record = match rng.below(8) {
            0 | 1 => Record::DelegatedInception,
            2 | 3 => Record::DelegatedRotation,
            4 => return damage::stranger(rng),
            5 => Record::Inception(make::inception(rng, self.taste)),
            6 => {
                let other = make::snapshot(rng, self.taste);
                if rng.one_in(2) {
                    Record::Rotation(make::rotation(rng, self.taste, &other))
                } else {
                    Record::Interaction(make::interaction(rng, &other))
                }
            }
            // On an empty holder a good KS would be taken: keep it empty.
            _ if self.holder.is_empty() => Record::DelegatedInception,
            _ => Record::Snapshot(make::odd_snapshot(rng, self.taste)),
        };
        let mut bytes = writer::whole(&record).bytes;
        if bytes.len() == 4 && rng.one_in(2) {
            // DI and DR: the body is not read.
            let length = if rng.one_in(30) { 0xffff } else { rng.below(60) };
            bytes.resize(4 + length, 0xee);
            damage::fit(&mut bytes);
        }
        bytes
    }

    fn damaged(&mut self) -> Vec<u8> {
        let record = if self.rng.one_in(5) {
            Record::Snapshot(make::snapshot(&mut self.rng, self.taste))
        } else {
            self.event()
        };
        damage::damaged(&mut self.rng, &record)
    }

    /// Offers inceptions until one is taken: one that can live on, but for the style closed.
    fn start(&mut self, closed: bool) {
        while self.holder.is_empty() {
            let record = self.event();
            let bytes = writer::whole(&record).bytes;
            if closed || !self.kills(&bytes) {
                self.put(&bytes);
            }
        }
    }

    /// Whether the records after this one would all get the same answer.
    fn dead(holder: &Holder) -> bool {
        holder.state().is_some_and(|state| state.sn == u128::MAX) || Self::stuck(holder)
    }

    fn stuck(holder: &Holder) -> bool {
        holder.state().is_some_and(|state| {
            !state.transferable || !make::reachable(&state.next_threshold, state.next.len())
        })
    }

    fn kills(&self, bytes: &[u8]) -> bool {
        let Head::Whole { mark, body, .. } = reader::head(bytes) else { return false };
        let mut after = self.holder.clone();
        if let Ok(record) = reader::body(mark, body) {
            after.offer(&record);
        }
        Self::stuck(&after)
    }

    fn takes(&self, bytes: &[u8]) -> bool {
        matches!(reader::head(bytes), Head::Whole { mark, body, .. }
            if reader::body(mark, body).is_ok_and(|r| self.holder.clone().offer(&r).number == 0))
    }

    /// Good, spoiled, damaged and misplaced records until so many are there.
    /// A life that came to its end goes on for a few records only, and so does a dull one.
    fn live(&mut self, until: usize, good: usize, damage: usize) {
        let mut last = until;
        while self.count < last.min(until) {
            if Self::dead(&self.holder) {
                last = last.min(self.count + 25);
            }
            let near_end = self.count + 40 > until;
            let roll = self.rng.below(100);
            let bytes = if roll < good {
                let record = self.event();
                writer::whole(&record).bytes
            } else if roll < good + damage {
                self.damaged()
            } else if roll < good + damage + 5 {
                self.misplaced()
            } else {
                let record = self.spoiled();
                writer::whole(&record).bytes
            };
            let dead = Self::dead(&self.holder);
            if dead || near_end || !self.kills(&bytes) || self.rng.one_in(40) {
                self.put(&bytes);
            }
        }
    }

    /// Stays empty: every record here is refused.
    fn empty_life(&mut self, until: usize) {
        while self.count < until {
            let roll = self.rng.below(100);
            let bytes = if roll < 12 {
                self.damaged()
            } else if roll < 22 {
                self.misplaced()
            } else {
                let record = self.spoiled();
                writer::whole(&record).bytes
            };
            if !self.takes(&bytes) {
                self.put(&bytes);
            }
        }
    }

    /// Whole sweeps over single records, in any order. A record that a check refuses anyway
    /// keeps the state, so that nothing of its sweep is lost.
    fn sweep(&mut self, until: usize) {
        loop {
            let record = match self.rng.below(3) {
                0 => Record::Snapshot(make::snapshot(&mut self.rng, self.taste)),
                1 => self.event(),
                _ => self.spoiled(),
            };
            let mut list = damage::sweep(&record);
            self.rng.shuffle(&mut list);
            for bytes in list {
                if self.count >= until {
                    return;
                }
                let moved = self.takes(&bytes);
                if !moved || !self.kills(&bytes) {
                    self.put(&bytes);
                }
                if moved {
                    break;
                }
            }
        }
    }

    /// Hardly any bytes: the lead alone, and bodies of up to three bytes.
    fn tiny(&mut self, until: usize) {
        while self.count < until {
            let mut bytes = self.rng.pick(&[b"IC", b"RO", b"IX", b"DI", b"DR", b"KS"]).to_vec();
            if self.rng.one_in(4) {
                bytes[self.rng.below(2)] = self.rng.next() as u8;
            }
            bytes.extend([0, 0]);
            bytes.extend((0..self.rng.below(4)).map(|_| self.rng.pick(b"BDEI\0\x01\xff")));
            damage::fit(&mut bytes);
            self.put(&bytes);
        }
    }

    /// Document 01's unstarred cases of 'Both sides of the line': 17 keys are 4, 16 are read
    /// on; with one witness toad 0 is 30, 2 is 31 and 1 passes.
    fn named(&mut self) {
        let mut event = make::inception(&mut self.rng, PLAIN);
        event.prefix[0] = b'E';
        event.keys = (0..17).map(|number| make::item(b'D', number)).collect();
        event.threshold = Threshold::Simple(1);
        event.witnesses = vec![make::item(b'B', 0)];
        event.signatures = vec![make::sign(&mut self.rng, 15, None)];
        event.receipts = vec![make::sign(&mut self.rng, 0, None)];
        event.toad = 1;
        self.put_record(&Record::Inception(event.clone()));
        event.keys.pop();
        for toad in [0, 2, 1] {
            event.toad = toad;
            self.put_record(&Record::Inception(event.clone()));
        }
    }

    fn run(&mut self, style: &str, until: usize) {
        let early = 1 + until / 20;
        self.taste = match style {
            "limits" => Taste { big: true, ..PLAIN },
            "heavy" => Taste { heavy: true, ..PLAIN },
            "estonly" => Taste { est_only: 100, ..PLAIN },
            "closed" => Taste { closing: 60, ..PLAIN },
            "sweep" => Taste { est_only: 0, closing: 0, ..PLAIN },
            _ => PLAIN,
        };
        match style {
            "named" => return self.named(),
            "start" => {
                self.taste.heavy = self.rng.one_in(4);
                self.taste.big = self.rng.one_in(6);
                self.empty_life(until - until / 10);
                self.start(false);
                self.live(until, 50, 5);
            }
            "odd" => {
                self.taste.heavy = self.rng.one_in(4);
                let state = make::odd_snapshot(&mut self.rng, self.taste);
                self.put_record(&Record::Snapshot(state));
                self.live(until, 20, 5);
            }
            "closed" => {
                self.empty_life(until / 2);
                self.start(true);
                self.live(until, 35, 8);
            }
            "bytes" => {
                self.empty_life(early);
                self.start(false);
                self.live(until, 15, 70);
            }
            "tiny" => {
                if self.rng.one_in(2) {
                    self.start(false);
                }
                self.tiny(until);
            }
            "sweep" => {
                if self.rng.one_in(2) {
                    self.start(false);
                }
                self.sweep(until);
            }
            _ => {
                self.empty_life(early);
                if style == "limits" || self.rng.one_in(4) {
                    let mut state = make::snapshot(&mut self.rng, self.taste);
                    if style == "limits" {
                        // Before an edge, to cross it or to come to the last number.
                        state.sn = state.sn.saturating_sub(self.rng.below(12) as u128);
                    } else {
                        state.sn >>= 1;
                    }
                    let bytes = writer::whole(&Record::Snapshot(state)).bytes;
                    if !self.kills(&bytes) {
                        self.put(&bytes);
                    }
                }
                self.start(false);
                self.live(until, 35, 8);
            }
        }
        if self.rng.one_in(2) {
            let record = self.event();
            let end = damage::cut_end(&mut self.rng, &record);
            self.out.extend(end);
        }
    }
}

fn main() {
    let words: Vec<String> = std::env::args().skip(1).collect();
    let words: Vec<&str> = words.iter().map(String::as_str).collect();
    let mut out = io::stdout().lock();
    let (seed, until, style) = match *words.as_slice() {
        ["styles"] => {
            writeln!(out, "{}", STYLES.join(" ")).expect("standard output");
            return;
        }
        [seed, until] => (seed, until, None),
        [seed, until, style] => (seed, until, Some(style)),
        _ => panic!("generate SEED COUNT [STYLE]"),
    };
    let seed: u64 = seed.parse().expect("a seed");
    let until: usize = until.parse().expect("a count");
    let mut rng = Rng::new(seed);
    if style == Some("calls") {
        for _ in 0..until {
            writeln!(out, "{}", calls::request(&mut rng)).expect("standard output");
        }
        return;
    }
    let chosen = STYLES[(seed % STYLES.len() as u64) as usize];
    let style = style.unwrap_or(chosen);
    assert!(STYLES.contains(&style) || style == "named", "no style is called {style}");
    let mut stream =
        Stream { rng, taste: PLAIN, holder: Holder::default(), out: Vec::new(), count: 0 };
    stream.run(style, until);
    out.write_all(&stream.out).expect("standard output");
}
