//! The oracle: prints what the given Rust answers to house records on standard input.
//!
//! ```text
//! oracle [--states] [--fold] [--no-checks]   keyreport's lines
//! oracle --record N                          the Nth record's bytes in hex
//! oracle --calls                             direct calls, see calls.rs
//! oracle --encode                            the same requests as bytes, see encode.rs
//! oracle --whole                             the stream without a record that is cut off at its end
//! oracle --life N FILE..                     the shortest life in these streams that ends in the answer N
//! ```
use std::io::{self, BufWriter, Read, Write};

use oracle_lib::holder::Holder;
use oracle_lib::report::{record_bytes, report, shortest_life, whole_records};
use oracle_lib::{calls, encode, hex};

fn main() {
    let mut flags: Vec<String> = std::env::args().skip(1).collect();
    let mut flag = |name: &str| {
        let count = flags.len();
        flags.retain(|flag| flag != name);
        flags.len() < count
    };
    let mut holder = Holder::default();
    holder.checks = !flag("--no-checks");
    let (states, fold, direct, one) =
        (flag("--states"), flag("--fold"), flag("--calls"), flag("--record"));
    let (bytes, whole, life) = (flag("--encode"), flag("--whole"), flag("--life"));
    let mut input = Vec::new();
    io::stdin().read_to_end(&mut input).expect("standard input");
    let mut out = BufWriter::new(io::stdout().lock());
    let result = if direct {
        let text = String::from_utf8(input).expect("requests are text");
        text.lines().try_for_each(|line| writeln!(out, "{}", calls::answer(line)))
    } else if bytes {
        let text = String::from_utf8(input).expect("requests are text");
        text.lines().try_for_each(|line| out.write_all(&encode::request(line)))
    } else if whole {
        out.write_all(whole_records(&input))
    } else if life {
        let read = |name: &String| std::fs::read(name).expect("a stream");
        let number = flags.first().and_then(|n| n.parse().ok()).expect("--life N FILE..");
        let streams: Vec<Vec<u8>> = flags[1..].iter().map(read).collect();
        out.write_all(&shortest_life(&streams, number))
    } else if one {
        let ordinal = flags.first().and_then(|n| n.parse().ok()).expect("--record N");
        writeln!(out, "{}", hex(record_bytes(&input, ordinal)))
    } else {
        assert!(flags.is_empty(), "unknown flags: {flags:?}");
        report(&input, &mut holder, fold, states, &mut out)
    };
    result.and_then(|()| out.flush()).expect("standard output");
}
