//! Writes house records. It also notes where single bytes have a class, for the generator.
use crate::record::*;

/// A byte whose value the reader judges.
#[derive(Clone, Copy, Debug, PartialEq, Eq)]
pub enum Spot {
    PrefixCode,
    KeyCode,
    DigestCode,
    Count(u8),
    Tag,
    ClauseSize,
    Flag,
    OndexByte,
    Verdict,
    Trait,
    Kind,
}

#[derive(Default)]
pub struct Writer {
    pub bytes: Vec<u8>,
    pub spots: Vec<(usize, Spot)>,
}

/// The whole record, mark and length included. DI and DR get an empty body.
pub fn whole(record: &Record) -> Writer {
    let mut out = Writer::default();
    out.bytes.extend(mark(record));
    out.bytes.extend([0, 0]);
    match record {
        Record::Inception(r) => out.inception(r),
        Record::Rotation(r) => out.rotation(r),
        Record::Interaction(r) => out.interaction(r),
        Record::Snapshot(r) => out.snapshot(r),
        Record::DelegatedInception | Record::DelegatedRotation => {}
    }
    let length = u16::try_from(out.bytes.len() - 4).expect("no record is that long");
    out.bytes[2..4].copy_from_slice(&length.to_be_bytes());
    out
}

pub fn mark(record: &Record) -> [u8; 2] {
    *match record {
        Record::Inception(_) => b"IC",
        Record::Rotation(_) => b"RO",
        Record::Interaction(_) => b"IX",
        Record::DelegatedInception => b"DI",
        Record::DelegatedRotation => b"DR",
        Record::Snapshot(_) => b"KS",
    }
}

impl Writer {
    fn spot(&mut self, spot: Spot, byte: u8) {
        self.spots.push((self.bytes.len(), spot));
        self.bytes.push(byte);
    }

    pub(crate) fn item(&mut self, spot: Spot, item: &Item) {
        self.spot(spot, item[0]);
        self.bytes.extend(&item[1..]);
    }

    fn sn(&mut self, sn: u128) {
        self.bytes.extend(sn.to_be_bytes());
    }

    pub(crate) fn u32(&mut self, value: u32) {
        self.bytes.extend(value.to_be_bytes());
    }

    fn count(&mut self, limit: usize, count: usize) {
        let limit = u8::try_from(limit).expect("limits are small");
        self.spot(Spot::Count(limit), u8::try_from(count).expect("counts are small"));
    }

    pub(crate) fn items(&mut self, spot: Spot, items: &[Item]) {
        self.count(MAX_ITEMS, items.len());
        for item in items {
            self.item(spot, item);
        }
    }

    pub fn threshold(&mut self, threshold: &Threshold) {
        match threshold {
            Threshold::Simple(required) => {
                self.spot(Spot::Tag, 0);
                self.bytes.extend(required.to_be_bytes());
            }
            Threshold::Weighted(clauses) => {
                self.spot(Spot::Tag, 1);
                self.count(MAX_CLAUSES, clauses.len());
                for clause in clauses {
                    let size = u8::try_from(clause.len()).expect("sizes are small");
                    self.spot(Spot::ClauseSize, size);
                }
                for (numerator, denominator) in clauses.iter().flatten() {
                    self.bytes.extend(numerator.to_be_bytes());
                    self.bytes.extend(denominator.to_be_bytes());
                }
            }
        }
    }

    fn config(&mut self, config: &[u8]) {
        self.count(MAX_CONFIG, config.len());
        for code in config {
            self.spot(Spot::Trait, *code);
        }
    }

    pub(crate) fn signatures(&mut self, signatures: &[Signature]) {
        self.count(MAX_SIGNATURES, signatures.len());
        for signature in signatures {
            self.bytes.push(signature.code);
            self.u32(signature.index);
            self.spot(Spot::Flag, u8::from(signature.ondex.is_some()));
            self.spots.push((self.bytes.len() + 3, Spot::OndexByte));
            self.u32(signature.ondex.unwrap_or(0));
            self.bytes.extend(signature.raw);
            self.spot(Spot::Verdict, u8::from(signature.verified));
            self.spot(Spot::Verdict, u8::from(signature.matches));
        }
    }

    fn inception(&mut self, r: &Inception) {
        self.item(Spot::PrefixCode, &r.prefix);
        self.sn(r.sn);
        self.item(Spot::DigestCode, &r.said);
        self.items(Spot::KeyCode, &r.keys);
        self.threshold(&r.threshold);
        self.items(Spot::DigestCode, &r.next);
        self.threshold(&r.next_threshold);
        self.items(Spot::KeyCode, &r.witnesses);
        self.u32(r.toad);
        self.config(&r.config);
        self.u32(r.anchors);
        self.signatures(&r.signatures);
        self.signatures(&r.receipts);
    }

    fn rotation(&mut self, r: &Rotation) {
        self.item(Spot::PrefixCode, &r.prefix);
        self.sn(r.sn);
        self.item(Spot::DigestCode, &r.said);
        self.item(Spot::DigestCode, &r.prior);
        self.items(Spot::KeyCode, &r.keys);
        self.threshold(&r.threshold);
        self.items(Spot::DigestCode, &r.next);
        self.threshold(&r.next_threshold);
        self.items(Spot::KeyCode, &r.additions);
        self.items(Spot::KeyCode, &r.removals);
        self.u32(r.toad);
        self.u32(r.anchors);
        self.signatures(&r.signatures);
        self.signatures(&r.receipts);
    }

    fn interaction(&mut self, r: &Interaction) {
        self.item(Spot::PrefixCode, &r.prefix);
        self.sn(r.sn);
        self.item(Spot::DigestCode, &r.said);
        self.item(Spot::DigestCode, &r.prior);
        self.u32(r.anchors);
        self.signatures(&r.signatures);
        self.signatures(&r.receipts);
    }

    fn snapshot(&mut self, r: &Snapshot) {
        self.item(Spot::PrefixCode, &r.prefix);
        self.sn(r.sn);
        self.item(Spot::DigestCode, &r.said);
        self.spot(Spot::Kind, r.latest);
        self.items(Spot::KeyCode, &r.keys);
        self.threshold(&r.threshold);
        self.items(Spot::DigestCode, &r.next);
        self.threshold(&r.next_threshold);
        self.items(Spot::KeyCode, &r.witnesses);
        self.u32(r.toad);
        self.config(&r.config);
        self.spot(Spot::Flag, u8::from(r.transferable));
        self.sn(r.establishment_sn);
        self.item(Spot::DigestCode, &r.establishment_said);
    }
}
