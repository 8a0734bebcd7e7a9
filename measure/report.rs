//! keyreport's lines by the given Rust, and the streams on which both are timed. Run it by measure/report.
//!
//! `report one COUNT` and `report widest COUNT` write a life of so many records; `report` reads one and writes its lines. Nothing is
//! done that the Rust does not need: no copies on the way (lent.rs), no checks of the oracle's, no look for 38, no state written. An
//! event is judged on a view of the owned state; the next state comes from `advance` where little changes, and else from what was
//! judged.
use std::fs::File;
use std::io::{self, BufReader, BufWriter, Read, Write};
use std::os::fd::AsFd;

use keri::{KeyState, KeyStateSnapshot, Signed};
use keri_events::KeriEvent;
use oracle_lib::record::{Answer, Record};
use oracle_lib::{rust, writer};

mod lent;
mod records;
use records::*;

fn offer(held: &mut Option<KeyStateSnapshot>, record: lent::Lent<'_>) -> Answer {
    let lent::Lent { event, signatures, receipts } = record;
    let signed = Signed::from_host_asserted_parts(&event, b"", signatures, receipts);
    let judged = match held.as_ref().map(KeyStateSnapshot::view) {
        None => KeyState::incept(&signed),
        Some(view) => view.ingest(&signed),
    };
    let next = match (judged, &event) {
        (Err(rejection), _) => return rust::number(&rejection),
        (Ok(_), KeriEvent::Interaction(_)) => None,
        (Ok(state), _) => Some(KeyStateSnapshot::from(&state)),
    };
    *held = next.or_else(|| held.take().map(|state| state.advance(&event)));
    Answer::ACCEPTED
}

fn report(mut input: impl Read, mut out: impl Write) -> io::Result<()> {
    let (mut head, mut body) = ([0; 4], Vec::new());
    let (mut offered, mut accepted, mut held) = (0, 0, None);
    while input.read(&mut head[..1])? == 1 {
        input.read_exact(&mut head[1..])?;
        let [a, b, high, low] = head;
        body.resize(usize::from(u16::from_be_bytes([high, low])), 0);
        input.read_exact(&mut body)?;
        let answer = lent::read([a, b], &body).map_or_else(Answer::plain, |record| offer(&mut held, record));
        offered += 1;
        accepted += u64::from(answer.number == 0);
        writeln!(out, "{offered} {}{} {answer}", char::from(a), char::from(b))?;
    }
    let sn = held.map_or("-".into(), |state| format!("{:x}", state.view().sn().value()));
    writeln!(out, "end {accepted} {offered} {sn}")?;
    out.flush()
}

/// A life: an inception, then rotations and interactions in turn.
fn life(size: Size, sn: usize) -> Record {
    match sn {
        0 => inception(size),
        _ if sn % 2 == 1 => rotation(size, sn),
        _ => interaction(size, sn),
    }
}

/// Standard input or output without the buffer that std has for it.
fn plain(stream: impl AsFd) -> File {
    stream.as_fd().try_clone_to_owned().expect("an open stream").into()
}

fn main() -> io::Result<()> {
    let words: Vec<String> = std::env::args().skip(1).collect();
    let mut out = BufWriter::with_capacity(1 << 16, plain(io::stdout()));
    let [name, count] = &words[..] else {
        return report(BufReader::with_capacity(1 << 16, plain(io::stdin())), out);
    };
    let size = if name == "one" { ONE } else { WIDEST };
    for sn in 0..count.parse().expect("a number of records") {
        out.write_all(&writer::whole(&life(size, sn)).bytes)?;
    }
    out.flush()
}
