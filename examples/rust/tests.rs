// The safe functions: what is accepted, what is refused, and that a refusal touches nothing.
use super::*;

#[path = "records.rs"]
mod records;
use records::{group, inception, interaction, rotation};

fn refused(number: u8, a: u128, b: u128) -> Result<(), Refusal> {
    Err(Refusal { number, a, b })
}

#[test]
fn a_life() {
    let mut state = State::EMPTY;
    assert_eq!(state.sn(), None);
    assert_eq!(state.offer(&interaction(1, 2, 1, true)), refused(8, 0, 0));
    assert_eq!(state.offer(&inception()), Ok(()));
    assert_eq!(state.sn(), Some(0));
    assert_eq!(state.offer(&inception()), refused(9, 0, 0));
    assert_eq!(state.offer(&interaction(1, 2, 1, false)), refused(27, 0, 0));
    assert_eq!(state.offer(&interaction(1, 2, 1, true)), Ok(()));
    assert_eq!(state.offer(&interaction(1, 2, 1, true)), refused(35, 2, 1));
    assert_eq!(state.offer(&rotation(2, 3, 1)), refused(36, 0, 0));
    assert_eq!(state.offer(&rotation(2, 3, 2)), Ok(()));
    assert_eq!(state.sn(), Some(2));
}

#[test]
fn the_clause_that_is_short() {
    let mut state = State::EMPTY;
    let refusal = state.offer(&group()).unwrap_err();
    assert_eq!((refusal.number, refusal.a, refusal.b), (27, 1, 2));
    assert_eq!(refusal.short_clause(), Some(2));
    // A number as threshold has no clause to name, and b of other refusals names none.
    state.offer(&inception()).unwrap();
    assert_eq!(state.offer(&interaction(1, 2, 1, false)).unwrap_err().short_clause(), None);
    assert_eq!(state.offer(&interaction(3, 2, 1, true)).unwrap_err().short_clause(), None);
}

#[test]
fn details_of_128_bits() {
    let mut state = State::EMPTY;
    state.offer(&inception()).unwrap();
    let far = u128::MAX - 5;
    assert_eq!(state.offer(&interaction(far, 2, 1, true)), refused(35, 1, far));
}

#[test]
fn a_refusal_touches_nothing() {
    let mut buffer = [0xee; 400];
    let mut used = 0;
    offer(&mut buffer, &mut used, &inception()).unwrap();
    assert!(buffer[used..].iter().all(|byte| *byte == 0xee));
    let before = (buffer, used);
    for record in [inception(), interaction(7, 2, 1, true), vec![], vec![b'I', b'X'], b"ZZ\0\0".to_vec()] {
        assert!(offer(&mut buffer, &mut used, &record).is_err());
        assert_eq!((buffer, used), before);
    }
}

#[test]
fn room() {
    let mut whole = State::EMPTY;
    whole.offer(&inception()).unwrap();
    let needed = whole.as_bytes().len();
    for capacity in [0, 1, needed - 1] {
        let mut buffer = vec![0xee; capacity];
        let mut used = 0;
        assert_eq!(offer(&mut buffer, &mut used, &inception()), refused(41, needed as u128, 0));
        assert_eq!((buffer, used), (vec![0xee; capacity], 0));
    }
    let mut buffer = vec![0xee; needed];
    let mut used = 0;
    assert_eq!(offer(&mut buffer, &mut used, &inception()), Ok(()));
    assert_eq!((&buffer[..], used), (whole.as_bytes(), needed));
}

#[test]
fn bytes_that_are_no_state() {
    let mut state = State::EMPTY;
    state.offer(&inception()).unwrap();
    let good = state.as_bytes().to_vec();
    assert_eq!(State::from_bytes(&good).unwrap().sn(), Some(0));
    assert_eq!(State::from_bytes(&[]).unwrap().sn(), None);
    let number = |bytes: &[u8]| ask(bytes).unwrap_err().number;
    assert_eq!(number(&good[..3]), 1);
    assert_eq!(number(&good[..good.len() - 1]), 1);
    assert_eq!(number(&inception()), 2);
    assert_eq!(number(&[&good[..], &[0]].concat()), 3);
    let mut many = good.clone();
    many[4 + 33 + 16 + 33 + 1] = 17; // the key count
    assert_eq!(number(&many), 4);
    // A number of used bytes above the buffer's length.
    let (mut buffer, mut used) = (good.clone(), good.len() + 1);
    assert_eq!(offer(&mut buffer, &mut used, &interaction(1, 2, 1, true)), refused(1, 0, 0));
    assert_eq!((buffer, used), (good.clone(), good.len() + 1));
}

#[test]
fn folding_is_the_same_without_the_checks() {
    let (mut checked, mut folded) = (State::EMPTY, State::EMPTY);
    let history = [inception(), interaction(1, 2, 1, true), rotation(2, 3, 2)].concat();
    let mut rest = &history[..];
    while !rest.is_empty() {
        let (record, behind) = split_record(rest);
        assert_eq!(checked.offer(record), Ok(()));
        assert_eq!(folded.fold(record), Ok(()));
        rest = behind;
    }
    assert_eq!(checked.as_bytes(), folded.as_bytes());
    // Nothing is looked at: the number jumps, the prior is another.
    assert_eq!(folded.fold(&interaction(77, 9, 5, false)), Ok(()));
    assert_eq!(folded.sn(), Some(77));
    let bytes = checked.as_bytes().to_vec();
    assert_eq!(folded.fold(&bytes), refused(2, 0, 0));
    assert_eq!(State::EMPTY.clone().fold(&rotation(1, 2, 1)), refused(8, 0, 0));
}

#[test]
fn records_in_a_row() {
    let two = [inception(), b"ZZ\0\x01x".to_vec(), b"IC".to_vec()].concat();
    let (first, rest) = split_record(&two);
    assert_eq!(first, inception());
    let (second, rest) = split_record(rest);
    assert_eq!(second, b"ZZ\0\x01x");
    assert_eq!(split_record(rest), (&b"IC"[..], &[][..]));
    assert_eq!(split_record(&[]), (&[][..], &[][..]));
    // Only the first record is looked at.
    let mut state = State::EMPTY;
    assert_eq!(state.offer(&two), Ok(()));
}

#[test]
fn thresholds() {
    let halves = [vec![1, 1, 2], [1u64, 2, 1, 2].iter().flat_map(|n| n.to_be_bytes()).collect()].concat();
    assert_eq!(attainable(&halves, 1), Ok(false));
    assert_eq!(attainable(&halves, 2), Ok(true));
    assert_eq!(attainable(&halves, 17).unwrap_err().number, 4);
    assert_eq!(attainable(&halves[..halves.len() - 1], 2).unwrap_err().number, 3);
    assert_eq!(attainable(&[&halves[..], &[0]].concat(), 2).unwrap_err().number, 3);
}

#[test]
fn names() {
    let refusal = Refusal { number: 35, a: 2, b: 1 };
    assert_eq!(refusal.to_string(), "35 OutOfOrder (a 2, b 1)");
    assert_eq!(NAMES[41], "NoRoom");
}

// The header has every name but those of direct calls, docs/NUMBERS.md has all of them.
#[test]
fn names_are_told_alike() {
    let snake = |name: &str| -> String {
        let parts = name.chars().map(|c| if c.is_uppercase() { format!("_{c}") } else { c.to_uppercase().to_string() });
        parts.collect::<String>().trim_start_matches('_').to_string()
    };
    let header = include_str!("../../include/keystate.h");
    let paper = include_str!("../../docs/NUMBERS.md");
    for (number, name) in NAMES.iter().enumerate() {
        let direct = number == 39 || number == 40;
        let line = format!("  KEYSTATE_{} = {number}", snake(name));
        let told = header.lines().any(|l| l.starts_with(&line) && !l[line.len()..].starts_with(|c: char| c.is_ascii_digit()));
        assert_eq!(told, !direct, "{line}");
        assert_eq!(paper.matches(&format!("| {number} | {name} |")).count(), 1, "{name}");
    }
    assert_eq!(header.lines().filter(|l| l.starts_with("  KEYSTATE_")).count(), NAMES.len() - 2);
    assert_eq!(paper.lines().filter(|l| l.starts_with("| ") && l.as_bytes()[2].is_ascii_digit()).count(), NAMES.len());
}
