//! The lines of keyreport for a stream, and the bytes of one of its records.
use std::io::{self, Write};

use crate::hex;
use crate::holder::Holder;
use crate::reader::{self, Head};
use crate::record::Answer;

/// The lines of keyreport, as document 01 writes them.
pub fn report(
    mut stream: &[u8],
    holder: &mut Holder,
    fold: bool,
    states: bool,
    out: &mut impl Write,
) -> io::Result<()> {
    let (mut offered, mut accepted) = (0, 0);
    loop {
        let (mark, answer) = match reader::head(stream) {
            Head::End => break,
            Head::Truncated => {
                stream = &[];
                (*b"??", Answer::plain(1))
            }
            Head::Whole { mark, body, rest } => {
                stream = rest;
                match reader::body(mark, body) {
                    Err(2) => (*b"??", Answer::plain(2)),
                    Err(number) => (mark, Answer::plain(number)),
                    Ok(record) if fold => (mark, holder.fold(&record)),
                    Ok(record) => (mark, holder.offer(&record)),
                }
            }
        };
        offered += 1;
        accepted += u64::from(answer.number == 0);
        let [first, second] = mark.map(char::from);
        writeln!(out, "{offered} {first}{second} {answer}")?;
        if states {
            writeln!(out, "{}", holder.save(usize::MAX).map_or("-".into(), |bytes| hex(&bytes)))?;
        }
    }
    let sn = holder.state().map_or("-".into(), |state| format!("{:x}", state.sn));
    writeln!(out, "end {accepted} {offered} {sn}")
}

/// The stream without a record that is cut off at its end.
pub fn whole_records(stream: &[u8]) -> &[u8] {
    let mut left = stream;
    while let Head::Whole { rest, .. } = reader::head(left) {
        left = rest;
    }
    &stream[..stream.len() - left.len()]
}

/// The bytes of one record, counted from 1. What is left over at the end counts as one.
pub fn record_bytes(mut stream: &[u8], ordinal: usize) -> &[u8] {
    for _ in 1..ordinal {
        match reader::head(stream) {
            Head::Whole { rest, .. } => stream = rest,
            _ => return &[],
        }
    }
    match reader::head(stream) {
        Head::Whole { rest, .. } => &stream[..stream.len() - rest.len()],
        _ => stream,
    }
}

/// The shortest life that ends in an answer: of one stream the accepted records up to the first that gets this
/// number, and that one; of several streams the shortest of these.
pub fn shortest_life(streams: &[Vec<u8>], number: u32) -> Vec<u8> {
    let lives = streams.iter().filter_map(|stream| life(stream, number));
    lives.min_by_key(Vec::len).unwrap_or_default()
}

fn life(mut stream: &[u8], number: u32) -> Option<Vec<u8>> {
    let mut holder = Holder::default();
    let mut life = Vec::new();
    while let Head::Whole { mark, body, rest } = reader::head(stream) {
        let answer = match reader::body(mark, body) {
            Err(number) => Answer::plain(number),
            Ok(record) => holder.offer(&record),
        };
        let record = &stream[..stream.len() - rest.len()];
        stream = rest;
        if answer.number == number || answer.number == 0 {
            life.extend(record);
        }
        if answer.number == number {
            return Some(life);
        }
    }
    None
}
