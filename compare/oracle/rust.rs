//! Between house records and the given Rust's types, and from its rejections to our numbers.
use std::borrow::Cow;

use cesr::core::indexer::Indexer;
use cesr::core::matter::code::{DigestCode, VerKeyCode};
use cesr::core::matter::matter::Matter;
use cesr::core::primitives::{Number, Siger};
use keri::{
    DelegationError, KeyStateSnapshot, Rejection, StructuralError, TransferabilityError,
    Transferability, WitnessSetError,
};
use keri_events::{
    BasicPrefix, ConfigTrait, DelegatedInceptionEvent, DelegatedRotationEvent, Digest, Identifier,
    InceptionEvent, InceptionIdentityError, InteractionEvent, KeriEvent, MemberSetError,
    MessageType, OpaqueSeal, RotationEvent, Said, Seal, SigningThreshold, SigningThresholdError,
    ThresholdForm, Toad, VerifyingKey, WeightedThreshold,
};

use crate::record::*;

// ---- Items ----

fn matter<C>(code: C, item: &Item) -> Matter<'static, C> {
    Matter::new(code, Cow::Owned(item[1..].to_vec()), Cow::Borrowed(""))
}

fn key_matter(item: &Item) -> Matter<'static, VerKeyCode> {
    let code = match item[0] {
        b'B' => VerKeyCode::Ed25519N,
        b'D' => VerKeyCode::Ed25519,
        other => panic!("the reader let the key code {other} pass"),
    };
    matter(code, item)
}

const DIGESTS: [DigestCode; 5] = [
    DigestCode::Blake3_256,
    DigestCode::Blake2b_256,
    DigestCode::Blake2s_256,
    DigestCode::Sha3_256,
    DigestCode::Sha2_256,
];

fn digest_matter(item: &Item) -> Matter<'static, DigestCode> {
    matter(DIGESTS[usize::from(item[0] - b'E')], item)
}

fn item_of(code: u8, raw: &[u8]) -> Item {
    let mut item = [code; 33];
    item[1..].copy_from_slice(raw);
    item
}

pub fn key_item(matter: &Matter<'_, VerKeyCode>) -> Item {
    let code = match matter.code() {
        VerKeyCode::Ed25519N => b'B',
        VerKeyCode::Ed25519 => b'D',
        other => panic!("no house record has the key code {other:?}"),
    };
    item_of(code, matter.raw())
}

fn digest_item(matter: &Matter<'_, DigestCode>) -> Item {
    let place = DIGESTS.iter().position(|code| code == matter.code());
    item_of(b"EFGHI"[place.expect("a known digest code")], matter.raw())
}

fn identifier(item: &Item) -> Identifier<'static> {
    match item[0] {
        b'B' | b'D' => Identifier::Basic(BasicPrefix::new(key_matter(item))),
        _ => Identifier::SelfAddressing(said(item)),
    }
}

fn identifier_item(identifier: &Identifier<'_>) -> Item {
    match identifier {
        Identifier::Basic(prefix) => key_item(prefix.as_matter()),
        Identifier::SelfAddressing(said) => digest_item(said.as_matter()),
    }
}

fn said(item: &Item) -> Said<'static> {
    Said::new(digest_matter(item))
}

pub fn keys(items: &[Item]) -> Vec<VerifyingKey<'static>> {
    items.iter().map(|item| VerifyingKey::new(key_matter(item))).collect()
}

pub fn digests(items: &[Item]) -> Vec<Digest<'static>> {
    items.iter().map(|item| Digest::new(digest_matter(item))).collect()
}

pub fn witnesses(items: &[Item]) -> Vec<BasicPrefix<'static>> {
    items.iter().map(|item| BasicPrefix::new(key_matter(item))).collect()
}

// ---- Thresholds, config, seals, signatures ----

pub fn threshold(threshold: &Threshold) -> SigningThreshold {
    match threshold {
        Threshold::Simple(required) => SigningThreshold::Simple(*required),
        Threshold::Weighted(clauses) => SigningThreshold::Weighted(
            WeightedThreshold::from_nested(clauses.clone()).expect("few weights"),
        ),
    }
}

fn threshold_back(threshold: &SigningThreshold) -> Threshold {
    match threshold {
        SigningThreshold::Simple(required) => Threshold::Simple(*required),
        SigningThreshold::Weighted(weighted) => {
            Threshold::Weighted(weighted.clauses().map(<[_]>::to_vec).collect())
        }
    }
}

/// The Rust names six traits and house records fifteen, so each trait byte becomes two of
/// the Rust's. Only 1 gives EstOnly, and the byte can be told from the pair.
fn config_pair(code: u8) -> [ConfigTrait; 2] {
    use ConfigTrait::*;
    let others = [NoBackers, RegistrarBackers, NoRegistrarBackers, DelegateIsDelegator];
    match code {
        1 => [EstOnly, EstOnly],
        2 => [DoNotDelegate, DoNotDelegate],
        _ => [others[usize::from(code / 4)], others[usize::from(code % 4)]],
    }
}

fn config(codes: &[u8]) -> Vec<ConfigTrait> {
    codes.iter().flat_map(|code| config_pair(*code)).collect()
}

fn config_back(traits: &[ConfigTrait]) -> Vec<u8> {
    let code = |pair: &[ConfigTrait]| (1..=15).find(|code| config_pair(*code) == *pair);
    traits.chunks(2).map(|pair| code(pair).expect("a pair of ours")).collect()
}

/// The Rust only asks whether there are anchors, so one seal stands for any count above 0.
fn anchors(count: u32) -> Vec<Seal<'static>> {
    (0..count.min(1)).map(|_| Seal::Opaque(OpaqueSeal::new_unchecked("{}"))).collect()
}

pub fn sigers(signatures: &[Signature]) -> Vec<Siger<'_>> {
    signatures
        .iter()
        .map(|s| Siger::new(Indexer::new(s.code, s.index, s.ondex, &s.raw, s.verified, s.matches)))
        .collect()
}

// ---- Events ----

pub fn inception(r: &Inception) -> InceptionEvent<'static> {
    InceptionEvent::new_unchecked(
        identifier(&r.prefix),
        Number::new(r.sn),
        said(&r.said),
        keys(&r.keys),
        threshold(&r.threshold),
        digests(&r.next),
        threshold(&r.next_threshold),
        witnesses(&r.witnesses),
        Toad::from_wire(r.toad),
        config(&r.config),
        anchors(r.anchors),
        ThresholdForm::Integer,
    )
}

fn rotation(r: &Rotation) -> RotationEvent<'static> {
    RotationEvent::new_unchecked(
        identifier(&r.prefix),
        Number::new(r.sn),
        said(&r.said),
        said(&r.prior),
        keys(&r.keys),
        threshold(&r.threshold),
        digests(&r.next),
        threshold(&r.next_threshold),
        witnesses(&r.additions),
        witnesses(&r.removals),
        Toad::from_wire(r.toad),
        anchors(r.anchors),
        ThresholdForm::Integer,
    )
}

fn interaction(r: &Interaction) -> InteractionEvent<'static> {
    InteractionEvent::new_unchecked(
        identifier(&r.prefix),
        Number::new(r.sn),
        said(&r.said),
        said(&r.prior),
        anchors(r.anchors),
    )
}

/// The Rust's event. The bodies of DI and DR are not read, so any content will do.
pub fn event(record: &Record) -> KeriEvent<'static> {
    let any = [b'E'; 33];
    let none = Threshold::Simple(0);
    match record {
        Record::Inception(r) => KeriEvent::Inception(inception(r)),
        Record::Rotation(r) => KeriEvent::Rotation(rotation(r)),
        Record::Interaction(r) => KeriEvent::Interaction(interaction(r)),
        Record::DelegatedInception => {
            KeriEvent::DelegatedInception(DelegatedInceptionEvent::new_unchecked(
                inception(&Inception {
                    prefix: any,
                    sn: 0,
                    said: any,
                    keys: vec![],
                    threshold: none.clone(),
                    next: vec![],
                    next_threshold: none,
                    witnesses: vec![],
                    toad: 0,
                    config: vec![],
                    anchors: 0,
                    signatures: vec![],
                    receipts: vec![],
                }),
                identifier(&any),
            ))
        }
        Record::DelegatedRotation => {
            KeriEvent::DelegatedRotation(DelegatedRotationEvent::new_unchecked(rotation(
                &Rotation {
                    prefix: any,
                    sn: 0,
                    said: any,
                    prior: any,
                    keys: vec![],
                    threshold: none.clone(),
                    next: vec![],
                    next_threshold: none,
                    additions: vec![],
                    removals: vec![],
                    toad: 0,
                    anchors: 0,
                    signatures: vec![],
                    receipts: vec![],
                },
            )))
        }
        Record::Snapshot(_) => panic!("a KS is no event"),
    }
}

// ---- States ----

pub fn snapshot(r: &Snapshot) -> KeyStateSnapshot {
    KeyStateSnapshot::from_parts(
        identifier(&r.prefix),
        Number::new(r.sn),
        said(&r.said),
        [MessageType::Icp, MessageType::Rot, MessageType::Ixn][usize::from(r.latest)],
        keys(&r.keys),
        threshold(&r.threshold),
        digests(&r.next),
        threshold(&r.next_threshold),
        witnesses(&r.witnesses),
        Toad::from_wire(r.toad),
        config(&r.config),
        None,
        if r.transferable {
            Transferability::Transferable
        } else {
            Transferability::NonTransferable
        },
        Number::new(r.establishment_sn),
        said(&r.establishment_said),
    )
}

pub fn snapshot_back(snapshot: &KeyStateSnapshot) -> Snapshot {
    let state = snapshot.view();
    assert!(state.delegator().is_none(), "no house record brings a delegator");
    Snapshot {
        prefix: identifier_item(state.prefix()),
        sn: state.sn().value(),
        said: digest_item(state.latest_said().as_matter()),
        latest: match state.latest_message_type() {
            MessageType::Icp => 0,
            MessageType::Rot => 1,
            MessageType::Ixn => 2,
            other => panic!("no accepted record has the type {other:?}"),
        },
        keys: state.keys().iter().map(|key| key_item(key.as_matter())).collect(),
        threshold: threshold_back(state.threshold()),
        next: state.next_keys().iter().map(|next| digest_item(next.as_matter())).collect(),
        next_threshold: threshold_back(state.next_threshold()),
        witnesses: state.witnesses().iter().map(|one| key_item(one.as_matter())).collect(),
        toad: state.witness_threshold().value(),
        config: config_back(state.config()),
        transferable: state.is_transferable(),
        establishment_sn: state.last_establishment().sn.value(),
        establishment_said: digest_item(state.last_establishment().said.as_matter()),
    }
}

// ---- Numbers ----

fn wide(count: usize) -> u128 {
    u128::try_from(count).expect("a count")
}

/// Document 01's number and details of a rejection.
pub fn number(rejection: &Rejection) -> Answer {
    use Answer as A;
    match rejection {
        Rejection::Delegation(DelegationError::EvidenceRequired) => A::plain(6),
        Rejection::Delegation(DelegationError::DelegatorUnknown) => A::plain(7),
        Rejection::Structural(StructuralError::NotInception) => A::plain(8),
        Rejection::Structural(StructuralError::DuplicateInception) => A::plain(9),
        Rejection::NonTransferableState => A::plain(10),
        Rejection::Structural(StructuralError::NonZeroGenesisSn { sn }) => A::with(11, *sn, 0),
        Rejection::InceptionIdentity(identity) => identity_number(identity),
        Rejection::WitnessSet(WitnessSetError::Membership(members)) => members_number(members),
        Rejection::WitnessSet(WitnessSetError::RemovalNotCurrent) => A::plain(21),
        Rejection::WitnessSet(WitnessSetError::AdditionAlreadyPresent) => A::plain(22),
        Rejection::MalformedThreshold(shape) => threshold_number(shape),
        Rejection::MissingSignatures { verified } => A::with(27, wide(*verified), 0),
        Rejection::PriorNextThresholdUnsatisfied { exposed } => A::with(28, wide(*exposed), 0),
        Rejection::Transferability(TransferabilityError::NonTransferableCommitsNextKeys) => {
            A::plain(29)
        }
        Rejection::WitnessThresholdZeroWithWitnesses { count } => A::with(30, wide(*count), 0),
        Rejection::WitnessThresholdExceeded { toad, count } => {
            A::with(31, u128::from(*toad), wide(*count))
        }
        Rejection::InsufficientWitnessReceipts { valid, required } => {
            A::with(32, wide(*valid), u128::from(*required))
        }
        Rejection::Structural(StructuralError::IdentifierMismatch) => A::plain(33),
        Rejection::Structural(StructuralError::SequenceNumberOverflow) => A::plain(34),
        Rejection::OutOfOrder { expected, actual } => A::with(35, *expected, *actual),
        Rejection::PriorDigestMismatch => A::plain(36),
        Rejection::Structural(StructuralError::InteractionOnEstablishmentOnly) => A::plain(37),
        other => panic!("document 01 has no number for {other:?}"),
    }
}

pub fn identity_number(identity: &InceptionIdentityError) -> Answer {
    match identity {
        InceptionIdentityError::BasicKeyCount { actual } => Answer::with(12, wide(*actual), 0),
        InceptionIdentityError::BasicThreshold => Answer::plain(13),
        InceptionIdentityError::BasicKeyMismatch => Answer::plain(14),
        InceptionIdentityError::NonTransferableNextKeys => Answer::plain(15),
        InceptionIdentityError::NonTransferableWitnesses => Answer::plain(16),
        InceptionIdentityError::NonTransferableAnchors => Answer::plain(17),
    }
}

pub fn members_number(members: &MemberSetError) -> Answer {
    let list = |set: &str| match set {
        "witnesses" => 1,
        "witness removals" => 2,
        "witness additions" => 3,
        other => panic!("no list is called {other}"),
    };
    match members {
        MemberSetError::Duplicate { set } => Answer::with(18, list(set), 0),
        MemberSetError::TransferableWitness { set } => Answer::with(19, list(set), 0),
        MemberSetError::CutAddOverlap { .. } => Answer::plain(20),
    }
}

pub fn threshold_number(shape: &SigningThresholdError) -> Answer {
    match shape {
        SigningThresholdError::BelowMinimum => Answer::plain(23),
        SigningThresholdError::ExceedsKeyCount { required, key_count } => {
            Answer::with(24, wide(*required), wide(*key_count))
        }
        SigningThresholdError::EmptyClauseList => Answer::plain(25),
        SigningThresholdError::EmptyClause => Answer::plain(26),
        SigningThresholdError::TooManyWeights { count } => panic!("{count} weights"),
    }
}
