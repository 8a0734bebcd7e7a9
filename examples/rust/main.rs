//! A key state on a device, by the safe functions of keystate.rs. Build and run: examples/run
use keystate::{State, split_record};

#[path = "records.rs"]
mod records;

fn main() {
    // From flash; empty the first time.
    let mut state = State::from_bytes(&[]).expect("no bytes are no state");
    let stream = [
        records::interaction(1, 2, 1, true),
        records::group(),
        records::inception(),
        records::interaction(1, 2, 1, false),
        records::interaction(1, 2, 1, true),
        records::rotation(2, 3, 2),
    ]
    .concat();
    let mut rest = &stream[..];
    while !rest.is_empty() {
        let (record, behind) = split_record(rest);
        match state.offer(record) {
            Ok(()) => println!("accepted; {} bytes to keep", state.as_bytes().len()),
            Err(refusal) => println!("refused: {refusal}"),
        }
        rest = behind;
    }
    println!("number {:?}", state.sn());
}
