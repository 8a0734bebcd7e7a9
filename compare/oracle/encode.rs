//! Requests for direct calls as bytes, for a program that reads no text: a frame as of a record, with a mark for
//! each kind of request and the request's fields as records have them.
//!
//! ```text
//! AM ample       n u64
//! EX exact       toad u32, n u64
//! SO sorted      threshold, count byte, places u32
//! AN any         the same
//! AT attainable  threshold, keys u64
//! WF wellformed  the same
//! WI witnesses   list
//! DE deltas      cuts, additions
//! ME members     current, cuts, additions
//! ID identity    prefix, keys, threshold, next, witnesses, anchors u32
//! SI signatures  keys, threshold, signatures
//! OP opening     next, threshold, keys, threshold, signatures
//! RE receipts    toad u32, witnesses, signatures
//! SA save        room u32, then a KS record, or nothing for an empty holder
//! ```
use crate::calls::{from_hex, item, items, parse, signatures, threshold};
use crate::writer::{Spot, Writer};

/// The bytes of one request. A request that is not in the syntax of calls.rs is a fault: it panics.
pub fn request(line: &str) -> Vec<u8> {
    let mut out = Writer::default();
    let words: Vec<&str> = line.split_whitespace().collect();
    let mark = match *words.as_slice() {
        ["ample", n] => out.wide(n, b"AM"),
        ["exact", toad, n] => {
            out.u32(parse(toad));
            out.wide(n, b"EX")
        }
        ["sorted", shape, ref places @ ..] => out.places(shape, places, b"SO"),
        ["any", shape, ref places @ ..] => out.places(shape, places, b"AN"),
        ["attainable", shape, keys] => {
            out.threshold(&threshold(shape));
            out.wide(keys, b"AT")
        }
        ["wellformed", shape, keys] => {
            out.threshold(&threshold(shape));
            out.wide(keys, b"WF")
        }
        ["witnesses", list] => out.lists(&[list], b"WI"),
        ["deltas", cuts, additions] => out.lists(&[cuts, additions], b"DE"),
        ["members", current, cuts, additions] => out.lists(&[current, cuts, additions], b"ME"),
        ["identity", prefix, keys, shape, next, witnesses, anchors] => {
            out.item(Spot::PrefixCode, &item(prefix));
            out.items(Spot::KeyCode, &items(keys));
            out.threshold(&threshold(shape));
            out.items(Spot::DigestCode, &items(next));
            out.items(Spot::KeyCode, &items(witnesses));
            out.u32(parse(anchors));
            b"ID"
        }
        ["signatures", keys, shape, list] => {
            out.items(Spot::KeyCode, &items(keys));
            out.threshold(&threshold(shape));
            out.signatures(&signatures(list));
            b"SI"
        }
        ["opening", next, next_shape, keys, shape, list] => {
            out.items(Spot::DigestCode, &items(next));
            out.threshold(&threshold(next_shape));
            out.items(Spot::KeyCode, &items(keys));
            out.threshold(&threshold(shape));
            out.signatures(&signatures(list));
            b"OP"
        }
        ["receipts", toad, witnesses, list] => {
            out.u32(parse(toad));
            out.items(Spot::KeyCode, &items(witnesses));
            out.signatures(&signatures(list));
            b"RE"
        }
        ["save", state, room] => {
            out.u32(parse(room));
            if state != "-" {
                out.bytes.extend(from_hex(state));
            }
            b"SA"
        }
        _ => panic!("not a request: {line}"),
    };
    let length = u16::try_from(out.bytes.len()).expect("no request is that long");
    [&mark[..], &length.to_be_bytes()[..], &out.bytes[..]].concat()
}

impl Writer {
    fn wide<'a>(&mut self, word: &str, mark: &'a [u8; 2]) -> &'a [u8; 2] {
        self.bytes.extend(parse::<u64>(word).to_be_bytes());
        mark
    }

    fn places<'a>(&mut self, shape: &str, places: &[&str], mark: &'a [u8; 2]) -> &'a [u8; 2] {
        self.threshold(&threshold(shape));
        self.bytes.push(u8::try_from(places.len()).expect("few places"));
        for place in places {
            self.u32(parse(place));
        }
        mark
    }

    fn lists<'a>(&mut self, lists: &[&str], mark: &'a [u8; 2]) -> &'a [u8; 2] {
        for list in lists {
            self.items(Spot::KeyCode, &items(list));
        }
        mark
    }
}
