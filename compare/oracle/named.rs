//! Named cases of document 01, asked of the oracle: the small example, both sides of the line.
use oracle_lib::calls;
use oracle_lib::holder::Holder;
use oracle_lib::reader::{self, Head};
use oracle_lib::record::*;
use oracle_lib::report::report;
use oracle_lib::writer;

fn lines(input: &[u8]) -> String {
    let mut out = Vec::new();
    report(input, &mut Holder::default(), false, false, &mut out).expect("memory");
    String::from_utf8(out).expect("text")
}

fn item(code: u8, number: u8) -> Item {
    let mut item = [number; 33];
    item[0] = code;
    item
}

fn signature(index: u32, verified: bool) -> Signature {
    Signature { code: b'A', index, ondex: None, raw: [7; 64], verified, matches: false }
}

/// A good inception with one key, no next digest and so many witnesses, all with receipts.
fn inception(witnesses: u8, toad: u32) -> Inception {
    Inception {
        prefix: item(b'E', 1),
        sn: 0,
        said: item(b'E', 2),
        keys: vec![item(b'D', 3)],
        threshold: Threshold::Simple(1),
        next: vec![item(b'E', 4)],
        next_threshold: Threshold::Simple(1),
        witnesses: (0..witnesses).map(|number| item(b'B', number)).collect(),
        toad,
        config: vec![],
        anchors: 0,
        signatures: vec![signature(0, true)],
        receipts: (0..witnesses).map(|place| signature(u32::from(place), true)).collect(),
    }
}

fn answer(record: Record) -> Answer {
    let bytes = writer::whole(&record).bytes;
    let Head::Whole { mark, body, .. } = reader::head(&bytes) else { panic!("a whole record") };
    match reader::body(mark, body) {
        Ok(read) => Holder::default().offer(&read),
        Err(number) => Answer::plain(number),
    }
}

fn says(expected: &str, request: &str) {
    assert_eq!(calls::answer(request), expected, "{request}");
}

#[test]
fn small_example() {
    assert_eq!(lines(&[0x44, 0x52, 0, 0, 0x49]), "1 DR 8 0 0\n2 ?? 1 0 0\nend 0 2 -\n");
}

#[test]
fn no_bytes_have_ended() {
    assert_eq!(lines(&[]), "end 0 0 -\n");
}

#[test]
fn truncated_comes_before_unknown() {
    assert_eq!(lines(b"ZZ\x00\x01"), "1 ?? 1 0 0\nend 0 1 -\n");
    assert_eq!(lines(b"ZZ\x00\x00IC"), "1 ?? 2 0 0\n2 ?? 1 0 0\nend 0 2 -\n");
}

#[test]
fn a_key_count_of_16_is_read_on_and_17_is_4() {
    let mut event = inception(0, 0);
    event.keys = vec![item(b'D', 3); 16];
    assert_eq!(answer(Record::Inception(event.clone())), Answer::ACCEPTED);
    event.keys.push(item(b'D', 3));
    assert_eq!(answer(Record::Inception(event)), Answer::plain(4));
    // At the count byte: 17 is 4 though the body ends there, 16 is 3 for want of items.
    let mut body = [item(b'E', 1).as_slice(), &[0; 16], &item(b'E', 2), &[17]].concat();
    assert_eq!(reader::body(*b"IC", &body), Err(4));
    *body.last_mut().unwrap() = 16;
    assert_eq!(reader::body(*b"IC", &body), Err(3));
}

#[test]
fn one_witness_toad_0_is_30_and_1_passes_and_2_is_31() {
    assert_eq!(answer(Record::Inception(inception(1, 0))), Answer::with(30, 1, 0));
    assert_eq!(answer(Record::Inception(inception(1, 1))), Answer::ACCEPTED);
    assert_eq!(answer(Record::Inception(inception(1, 2))), Answer::with(31, 2, 1));
}

#[test]
fn a_snapshot_buffer_one_byte_short_is_41() {
    let mut holder = Holder::default();
    assert_eq!(holder.save(0), Err(Answer::plain(8)));
    assert_eq!(holder.offer(&Record::Inception(inception(2, 1))), Answer::ACCEPTED);
    let length = holder.save(usize::MAX).expect("room").len();
    let needed = u128::try_from(length).unwrap();
    assert_eq!(holder.save(length - 1), Err(Answer::with(41, needed, 0)));
    assert_eq!(holder.save(length).map(|bytes| bytes.len()), Ok(length));
}

#[test]
fn weight_sizes_are_added_as_they_are_read() {
    let lead = [item(b'E', 1).as_slice(), &[0; 16], &item(b'E', 2), &[0]].concat();
    let read = |more: &[u8]| reader::body(*b"IC", &[&lead, more].concat()).err();
    assert_eq!(read(&[1, 2, 0x11]), Some(4));
    assert_eq!(read(&[1, 2, 0x10]), Some(3));
    assert_eq!(read(&[1, 2, 8, 9]), Some(4));
    assert_eq!(read(&[1, 17]), Some(4));
    assert_eq!(read(&[2]), Some(3));
}

#[test]
fn longest_bodies() {
    let weights = Threshold::Weighted(vec![vec![(1, 2)]; 16]);
    let (keys, nexts) = (vec![item(b'B', 9); 16], vec![item(b'E', 9); 16]);
    let signatures = vec![signature(0, true); 48];
    let rotation = Record::Rotation(Rotation {
        prefix: item(b'E', 1),
        sn: 1,
        said: item(b'E', 2),
        prior: item(b'E', 3),
        keys: keys.clone(),
        threshold: weights.clone(),
        next: nexts.clone(),
        next_threshold: weights.clone(),
        additions: keys.clone(),
        removals: keys.clone(),
        toad: 0,
        anchors: 0,
        signatures: signatures.clone(),
        receipts: signatures,
    });
    let snapshot = Record::Snapshot(Snapshot {
        prefix: item(b'E', 1),
        sn: 1,
        said: item(b'E', 2),
        latest: 2,
        keys: keys.clone(),
        threshold: weights.clone(),
        next: nexts,
        next_threshold: weights,
        witnesses: keys,
        toad: 0,
        config: vec![15; 8],
        transferable: true,
        establishment_sn: 0,
        establishment_said: item(b'E', 2),
    });
    assert_eq!(writer::whole(&rotation).bytes.len(), 4 + 10_085);
    assert_eq!(writer::whole(&snapshot).bytes.len(), 4 + 2_281);
}

#[test]
fn starred_thresholds() {
    says("yes", "sorted w1/2,1/2,1/2 0 2");
    says("no 1", "sorted w1/2,1/2,1/2 1");
    says("no 2", "sorted w1/2,1/2;1/1 0 1");
    says("yes", "sorted w1/2,1/2;1/1 0 1 2");
    says("no 1", "sorted w1/1,1/0 0");
    let heavy = "w1/1,1/9223372036854775808,1/9223372036854775808";
    says("yes", &format!("sorted {heavy} 0"));
    says("yes", &format!("sorted {heavy} 0 1"));
    says("no 1", &format!("sorted {heavy} 0 1 2"));
    says("yes", "sorted s2 0 5");
    says("no 0", "sorted s1 2 0");
    says("yes", "any s1 2 0");
}

/// Document 02, request 2: "the first unsatisfied clause, counted from 1, or 0 where there is none to
/// name (satisfied, a simple threshold, no clauses, or a list not strictly rising)".
#[test]
fn the_first_unsatisfied_clause() {
    says("no 1", "sorted w1/2,1/2;1/2,1/2,1/2 0 2 3");
    says("no 2", "sorted w1/2,1/2;1/2,1/2,1/2 0 1 4");
    says("no 1", "any w1/2,1/2;1/2,1/2,1/2 2 0");
    says("no 2", "sorted w1/1;;1/1 0");
    says("no 0", "sorted s2 0");
    says("no 0", "sorted w- 0");
    says("no 0", "sorted w1/2,1/2;1/1 1 0");
    says("no 2", "any w1/2,1/2;1/1 1 0");
    says("27 1 2", "signatures D1,D2 w1/1;1/1 65.0.-.1.1.0");
    says("27 1 0", "signatures D1,D2 s2 65.0.-.1.1.0");
    says("28 1 2", "opening E1,E2 w1/1;1/1 D1 w1/1 65.0.0.1.1.1");
    says("28 1 1", "opening E1,E2 w1/1;1/1 D1 w1/1 65.0.1.1.1.1");
    says("27 1 2", "opening E1,E2 w1/1;1/1 D1,D2 w1/1;1/1 65.0.1.1.1.1");
}

#[test]
fn starred_toads() {
    says("0 0 0 0", "exact 0 0");
    says("0 0 0 3", "exact 3 3");
    says("40 1 0", "exact 1 0");
    says("40 0 1", "exact 0 1");
    says("40 4 3", "exact 4 3");
    for (witnesses, toad) in [0, 1, 2, 3, 3, 4, 4, 5].iter().enumerate() {
        says(&format!("0 0 0 {toad}"), &format!("ample {witnesses}"));
    }
    says("0 0 0 7", "ample 10");
    says("0 0 0 11", "ample 16");
    says("0 0 0 4294967295", "ample 6442450942");
    says("39 17fffffff 0", "ample 6442450943");
}

#[test]
fn starred_lists_and_copies() {
    says("0 0 0 Ba,Bc,Bd", "members Ba,Bb,Bc Bb Bd");
    says("0 0 0 Ba,Bd", "members Ba - Ba,Bd,Bd");
    says("0 0 0", "opening E1,E2 s2 D1 s1 65.0.0.1.1.1,65.0.1.1.1.1");
    says("27 0 0", "signatures D1 s1 65.0.-.1.0.0,65.0.-.1.1.0");
    says("32 0 1", "receipts 1 B1 65.0.-.1.0.0,65.0.-.1.1.0");
}

#[test]
fn after_the_last_low_word_comes_the_high_one_and_the_last_number_has_no_next() {
    let event = |sn: u128, prior: Item| {
        Record::Interaction(Interaction {
            prefix: item(b'E', 1),
            sn,
            said: item(b'F', 9),
            prior,
            anchors: 0,
            signatures: vec![signature(0, true)],
            receipts: vec![],
        })
    };
    for (sn, offered, expected) in [
        (u128::from(u64::MAX), 1 << 64, Answer::ACCEPTED),
        (u128::from(u64::MAX), 0, Answer::with(35, 1 << 64, 0)),
        (u128::MAX, 0, Answer::plain(34)),
        (u128::MAX - 1, u128::MAX, Answer::ACCEPTED),
    ] {
        let mut holder = Holder::default();
        assert_eq!(holder.offer(&Record::Inception(inception(0, 0))), Answer::ACCEPTED);
        let mut state = holder.state().expect("held");
        state.sn = sn;
        let mut holder = Holder::default();
        assert_eq!(holder.offer(&Record::Snapshot(state)), Answer::ACCEPTED);
        assert_eq!(holder.offer(&event(offered, item(b'E', 2))), expected);
    }
}
