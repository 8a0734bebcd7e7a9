//! Reads house records by document 01: numbers 1 to 4 are decided here and nowhere else.
use crate::record::*;

/// What stands at the start of the rest of a stream.
pub enum Head<'a> {
    /// Nothing is left: the stream has ended.
    End,
    /// Some bytes, but no whole record: 1, and the input ends.
    Truncated,
    Whole { mark: [u8; 2], body: &'a [u8], rest: &'a [u8] },
}

/// Takes one record off the stream. 1 comes before 2, so the mark is not looked at.
pub fn head(stream: &[u8]) -> Head<'_> {
    if stream.is_empty() {
        return Head::End;
    }
    let Some((lead, rest)) = stream.split_first_chunk::<4>() else {
        return Head::Truncated;
    };
    let length = usize::from(u16::from_be_bytes([lead[2], lead[3]]));
    if rest.len() < length {
        return Head::Truncated;
    }
    let (body, rest) = rest.split_at(length);
    Head::Whole { mark: [lead[0], lead[1]], body, rest }
}

/// A value, or the number of the refusal: 3 BadField or 4 TooMany.
type Read<T> = Result<T, u32>;

const BAD_FIELD: u32 = 3;
const TOO_MANY: u32 = 4;

/// The record in a body, or 2, 3 or 4.
pub fn body(mark: [u8; 2], body: &[u8]) -> Read<Record> {
    let mut fields = Fields(body);
    let record = match &mark {
        b"IC" => Record::Inception(fields.inception()?),
        b"RO" => Record::Rotation(fields.rotation()?),
        b"IX" => Record::Interaction(fields.interaction()?),
        b"KS" => Record::Snapshot(fields.snapshot()?),
        // Body not read, so nothing can be left over in it.
        b"DI" => return Ok(Record::DelegatedInception),
        b"DR" => return Ok(Record::DelegatedRotation),
        _ => return Err(2),
    };
    if fields.0.is_empty() { Ok(record) } else { Err(BAD_FIELD) }
}

/// The part of the body that is not read yet.
struct Fields<'a>(&'a [u8]);

impl Fields<'_> {
    fn bytes<const N: usize>(&mut self) -> Read<[u8; N]> {
        let (bytes, rest) = self.0.split_first_chunk::<N>().ok_or(BAD_FIELD)?;
        self.0 = rest;
        Ok(*bytes)
    }

    fn byte(&mut self) -> Read<u8> {
        Ok(self.bytes::<1>()?[0])
    }

    fn u32(&mut self) -> Read<u32> {
        Ok(u32::from_be_bytes(self.bytes()?))
    }

    fn u64(&mut self) -> Read<u64> {
        Ok(u64::from_be_bytes(self.bytes()?))
    }

    fn sn(&mut self) -> Read<u128> {
        Ok(u128::from_be_bytes(self.bytes()?))
    }

    /// A byte that has to be 0 or 1.
    fn bit(&mut self) -> Read<bool> {
        match self.byte()? {
            0 => Ok(false),
            1 => Ok(true),
            _ => Err(BAD_FIELD),
        }
    }

    fn item(&mut self, class: fn(u8) -> bool) -> Read<Item> {
        let item: Item = self.bytes()?;
        if class(item[0]) { Ok(item) } else { Err(BAD_FIELD) }
    }

    fn prefix(&mut self) -> Read<Item> {
        self.item(|code| is_key(code) || is_digest(code))
    }

    fn digest(&mut self) -> Read<Item> {
        self.item(is_digest)
    }

    fn count(&mut self, limit: usize) -> Read<usize> {
        let count = usize::from(self.byte()?);
        if count > limit { Err(TOO_MANY) } else { Ok(count) }
    }

    /// A count above the limit is 4 at the count byte, before any item is looked at.
    fn list<T>(&mut self, limit: usize, one: impl Fn(&mut Self) -> Read<T>) -> Read<Vec<T>> {
        let count = self.count(limit)?;
        (0..count).map(|_| one(self)).collect()
    }

    fn keys(&mut self) -> Read<Vec<Item>> {
        self.list(MAX_ITEMS, |fields| fields.item(is_key))
    }

    fn digests(&mut self) -> Read<Vec<Item>> {
        self.list(MAX_ITEMS, Self::digest)
    }

    fn threshold(&mut self) -> Read<Threshold> {
        if !self.bit()? {
            return Ok(Threshold::Simple(self.u64()?));
        }
        let clauses = self.count(MAX_CLAUSES)?;
        let mut sizes = Vec::new();
        let mut total = 0;
        for _ in 0..clauses {
            let size = usize::from(self.byte()?);
            total += size;
            // At the size byte that passes the limit, even if later bytes are missing.
            if total > MAX_WEIGHTS {
                return Err(TOO_MANY);
            }
            sizes.push(size);
        }
        let mut weights = Vec::new();
        for size in sizes {
            let clause: Read<Vec<_>> = (0..size).map(|_| Ok((self.u64()?, self.u64()?))).collect();
            weights.push(clause?);
        }
        Ok(Threshold::Weighted(weights))
    }

    fn config(&mut self) -> Read<Vec<u8>> {
        self.list(MAX_CONFIG, |fields| match fields.byte()? {
            code @ 1..=15 => Ok(code),
            _ => Err(BAD_FIELD),
        })
    }

    fn signature(&mut self) -> Read<Signature> {
        let code = self.byte()?;
        let index = self.u32()?;
        let flag = self.bit()?;
        let ondex = self.u32()?;
        if !flag && ondex != 0 {
            return Err(BAD_FIELD);
        }
        Ok(Signature {
            code,
            index,
            ondex: flag.then_some(ondex),
            raw: self.bytes()?,
            verified: self.bit()?,
            matches: self.bit()?,
        })
    }

    fn signatures(&mut self) -> Read<Vec<Signature>> {
        self.list(MAX_SIGNATURES, Self::signature)
    }

    // The fields of a struct literal are read in the order they are written in.

    fn inception(&mut self) -> Read<Inception> {
        Ok(Inception {
            prefix: self.prefix()?,
            sn: self.sn()?,
            said: self.digest()?,
            keys: self.keys()?,
            threshold: self.threshold()?,
            next: self.digests()?,
            next_threshold: self.threshold()?,
            witnesses: self.keys()?,
            toad: self.u32()?,
            config: self.config()?,
            anchors: self.u32()?,
            signatures: self.signatures()?,
            receipts: self.signatures()?,
        })
    }

    fn rotation(&mut self) -> Read<Rotation> {
        Ok(Rotation {
            prefix: self.prefix()?,
            sn: self.sn()?,
            said: self.digest()?,
            prior: self.digest()?,
            keys: self.keys()?,
            threshold: self.threshold()?,
            next: self.digests()?,
            next_threshold: self.threshold()?,
            additions: self.keys()?,
            removals: self.keys()?,
            toad: self.u32()?,
            anchors: self.u32()?,
            signatures: self.signatures()?,
            receipts: self.signatures()?,
        })
    }

    fn interaction(&mut self) -> Read<Interaction> {
        Ok(Interaction {
            prefix: self.prefix()?,
            sn: self.sn()?,
            said: self.digest()?,
            prior: self.digest()?,
            anchors: self.u32()?,
            signatures: self.signatures()?,
            receipts: self.signatures()?,
        })
    }

    fn snapshot(&mut self) -> Read<Snapshot> {
        Ok(Snapshot {
            prefix: self.prefix()?,
            sn: self.sn()?,
            said: self.digest()?,
            latest: match self.byte()? {
                kind @ 0..=2 => kind,
                _ => return Err(BAD_FIELD),
            },
            keys: self.keys()?,
            threshold: self.threshold()?,
            next: self.digests()?,
            next_threshold: self.threshold()?,
            witnesses: self.keys()?,
            toad: self.u32()?,
            config: self.config()?,
            transferable: self.bit()?,
            establishment_sn: self.sn()?,
            establishment_said: self.digest()?,
        })
    }
}

pub fn is_key(code: u8) -> bool {
    matches!(code, b'B' | b'D')
}

pub fn is_digest(code: u8) -> bool {
    matches!(code, b'E'..=b'I')
}
