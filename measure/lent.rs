//! IC, RO and IX read straight into the given Rust's types, which borrow the body's bytes. The oracle's reader makes values of its
//! own first, and that time would be charged to the Rust.
use std::borrow::Cow;

use cesr::core::indexer::Indexer;
use cesr::core::matter::code::{DigestCode, VerKeyCode};
use cesr::core::matter::matter::Matter;
use cesr::core::primitives::{Number, Siger};
use keri_events::{
    BasicPrefix, ConfigTrait, Digest, Identifier, InceptionEvent, InteractionEvent, KeriEvent, OpaqueSeal, RotationEvent, Said, Seal,
    SigningThreshold, ThresholdForm, Toad, VerifyingKey, WeightedThreshold,
};

/// A value, or the number of the refusal.
type Read<T> = Result<T, u32>;

pub struct Lent<'b> {
    pub event: KeriEvent<'b>,
    pub signatures: Vec<Siger<'b>>,
    pub receipts: Vec<Siger<'b>>,
}

pub fn read<'b>(mark: [u8; 2], body: &'b [u8]) -> Read<Lent<'b>> {
    let mut f = Fields(body);
    let event = match &mark {
        b"IC" => f.inception()?,
        b"RO" => f.rotation()?,
        b"IX" => f.interaction()?,
        _ => return Err(2),
    };
    let (signatures, receipts) = (f.list(48, Fields::siger)?, f.list(48, Fields::siger)?);
    if f.0.is_empty() { Ok(Lent { event, signatures, receipts }) } else { Err(3) }
}

/// The part of the body that is not read yet.
struct Fields<'b>(&'b [u8]);

impl<'b> Fields<'b> {
    fn bytes<const N: usize>(&mut self) -> Read<&'b [u8; N]> {
        let (bytes, rest) = self.0.split_first_chunk().ok_or(3u32)?;
        self.0 = rest;
        Ok(bytes)
    }

    fn byte(&mut self) -> Read<u8> {
        self.bytes().map(|[byte]| *byte)
    }

    fn u32(&mut self) -> Read<u32> {
        self.bytes().map(|bytes| u32::from_be_bytes(*bytes))
    }

    fn u64(&mut self) -> Read<u64> {
        self.bytes().map(|bytes| u64::from_be_bytes(*bytes))
    }

    fn sn(&mut self) -> Read<Number> {
        self.bytes().map(|bytes| Number::new(u128::from_be_bytes(*bytes)))
    }

    fn bit(&mut self) -> Read<bool> {
        match self.byte()? {
            byte @ 0..=1 => Ok(byte == 1),
            _ => Err(3),
        }
    }

    fn list<T>(&mut self, limit: u8, one: impl Fn(&mut Self) -> Read<T>) -> Read<Vec<T>> {
        let count = self.byte()?;
        if count > limit {
            return Err(4);
        }
        let mut list = Vec::with_capacity(usize::from(count));
        for _ in 0..count {
            list.push(one(self)?);
        }
        Ok(list)
    }

    fn key(&mut self) -> Read<Matter<'b, VerKeyCode>> {
        let [code, raw @ ..] = self.bytes::<33>()?;
        let code = match code {
            b'B' => VerKeyCode::Ed25519N,
            b'D' => VerKeyCode::Ed25519,
            _ => return Err(3),
        };
        Ok(Matter::new(code, Cow::Borrowed(raw), Cow::Borrowed("")))
    }

    fn digest(&mut self) -> Read<Matter<'b, DigestCode>> {
        let [code, raw @ ..] = self.bytes::<33>()?;
        let code = match code {
            b'E' => DigestCode::Blake3_256,
            b'F' => DigestCode::Blake2b_256,
            b'G' => DigestCode::Blake2s_256,
            b'H' => DigestCode::Sha3_256,
            b'I' => DigestCode::Sha2_256,
            _ => return Err(3),
        };
        Ok(Matter::new(code, Cow::Borrowed(raw), Cow::Borrowed("")))
    }

    fn prefix(&mut self) -> Read<Identifier<'b>> {
        match self.0 {
            [b'B' | b'D', ..] => Ok(Identifier::Basic(BasicPrefix::new(self.key()?))),
            _ => Ok(Identifier::SelfAddressing(self.said()?)),
        }
    }

    fn said(&mut self) -> Read<Said<'b>> {
        self.digest().map(Said::new)
    }

    fn keys(&mut self) -> Read<Vec<VerifyingKey<'b>>> {
        self.list(16, |f| f.key().map(VerifyingKey::new))
    }

    fn next(&mut self) -> Read<Vec<Digest<'b>>> {
        self.list(16, |f| f.digest().map(Digest::new))
    }

    fn witnesses(&mut self) -> Read<Vec<BasicPrefix<'b>>> {
        self.list(16, |f| f.key().map(BasicPrefix::new))
    }

    fn threshold(&mut self) -> Read<SigningThreshold> {
        if !self.bit()? {
            return Ok(SigningThreshold::Simple(self.u64()?));
        }
        let sizes = self.list(16, Self::byte)?;
        if sizes.iter().map(|size| u32::from(*size)).sum::<u32>() > 16 {
            return Err(4);
        }
        let clauses: Read<Vec<Vec<_>>> = sizes.iter().map(|size| (0..*size).map(|_| Ok((self.u64()?, self.u64()?))).collect()).collect();
        Ok(SigningThreshold::Weighted(WeightedThreshold::from_nested(clauses?).expect("few weights")))
    }

    /// The streams have no config.
    fn config(&mut self) -> Read<Vec<ConfigTrait>> {
        self.list(0, |_| Err(3))
    }

    fn anchors(&mut self) -> Read<Vec<Seal<'b>>> {
        Ok((0..self.u32()?.min(1)).map(|_| Seal::Opaque(OpaqueSeal::new_unchecked("{}"))).collect())
    }

    fn siger(&mut self) -> Read<Siger<'b>> {
        let (code, index, flag, ondex) = (self.byte()?, self.u32()?, self.bit()?, self.u32()?);
        if !flag && ondex != 0 {
            return Err(3);
        }
        let raw = self.bytes::<64>()?;
        Ok(Siger::new(Indexer::new(code, index, flag.then_some(ondex), raw, self.bit()?, self.bit()?)))
    }

    // Arguments are read in the order they are written in.

    fn inception(&mut self) -> Read<KeriEvent<'b>> {
        Ok(KeriEvent::Inception(InceptionEvent::new_unchecked(
            self.prefix()?,
            self.sn()?,
            self.said()?,
            self.keys()?,
            self.threshold()?,
            self.next()?,
            self.threshold()?,
            self.witnesses()?,
            Toad::from_wire(self.u32()?),
            self.config()?,
            self.anchors()?,
            ThresholdForm::Integer,
        )))
    }

    fn rotation(&mut self) -> Read<KeriEvent<'b>> {
        Ok(KeriEvent::Rotation(RotationEvent::new_unchecked(
            self.prefix()?,
            self.sn()?,
            self.said()?,
            self.said()?,
            self.keys()?,
            self.threshold()?,
            self.next()?,
            self.threshold()?,
            self.witnesses()?,
            self.witnesses()?,
            Toad::from_wire(self.u32()?),
            self.anchors()?,
            ThresholdForm::Integer,
        )))
    }

    fn interaction(&mut self) -> Read<KeriEvent<'b>> {
        Ok(KeriEvent::Interaction(InteractionEvent::new_unchecked(
            self.prefix()?,
            self.sn()?,
            self.said()?,
            self.said()?,
            self.anchors()?,
        )))
    }
}
