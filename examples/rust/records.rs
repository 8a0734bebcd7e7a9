// Records of one key, and one of a group, made for the example and the tests. A device gets its records over the air.

fn item(code: u8, which: u8) -> Vec<u8> {
    let mut item = vec![which; 33];
    item[0] = code;
    item
}

fn list(code: u8, which: u8) -> Vec<u8> {
    [vec![1], item(code, which)].concat()
}

/// "1 of 1".
fn threshold() -> Vec<u8> {
    [vec![0], 1u64.to_be_bytes().to_vec()].concat()
}

fn record(mark: &[u8; 2], sn: u128, said: u8, middle: &[Vec<u8>], verdicts: [u8; 2]) -> Vec<u8> {
    let head = [item(b'E', 1), sn.to_be_bytes().to_vec(), item(b'E', said)].concat();
    // No anchors; one signature by key 0 that shows committed key 0; no receipts.
    let tail = [vec![0; 4], vec![1, b'A', 0, 0, 0, 0, 1, 0, 0, 0, 0], vec![0x5a; 64], verdicts.to_vec(), vec![0]].concat();
    let body = [head, middle.concat(), tail].concat();
    [mark.to_vec(), (body.len() as u16).to_be_bytes().to_vec(), body].concat()
}

pub fn inception() -> Vec<u8> {
    let none = vec![0, 0, 0, 0, 0, 0]; // witnesses, toad, config
    record(b"IC", 0, 1, &[list(b'D', 10), threshold(), list(b'E', 20), threshold(), none], [1, 0])
}

/// A teacher's clause and a pupil's clause, of one key each: both keys have to sign, and only the teacher's does.
pub fn group() -> Vec<u8> {
    let keys = [vec![2], item(b'D', 10), item(b'D', 11)].concat();
    let one = [1u64.to_be_bytes(), 1u64.to_be_bytes()].concat();
    let clauses = [vec![1, 2, 1, 1], one.clone(), one].concat();
    let none = vec![0, 0, 0, 0, 0, 0]; // witnesses, toad, config
    record(b"IC", 0, 1, &[keys, clauses, list(b'E', 20), threshold(), none], [1, 0])
}

pub fn interaction(sn: u128, said: u8, prior: u8, verified: bool) -> Vec<u8> {
    record(b"IX", sn, said, &[item(b'E', prior)], [u8::from(verified), 0])
}

pub fn rotation(sn: u128, said: u8, prior: u8) -> Vec<u8> {
    let none = vec![0, 0, 0, 0, 0, 0]; // additions, removals, toad
    record(b"RO", sn, said, &[item(b'E', prior), list(b'D', 11), threshold(), list(b'E', 21), threshold(), none], [1, 1])
}
