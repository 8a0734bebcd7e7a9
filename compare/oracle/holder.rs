//! The holder: empty or one state. Asks the given Rust about each record and checks itself.
use keri::{KeyState, KeyStateSnapshot, Rejection, Signed};
use keri_events::KeriEvent;

use crate::record::*;
use crate::{clause, rust, writer};

#[derive(Clone)]
pub struct Holder {
    state: Option<KeyStateSnapshot>,
    /// Compare the Rust with itself on the way. Off only where a fault was put into it, so
    /// that the fault has to show in an answer or a state.
    pub checks: bool,
}

impl Default for Holder {
    fn default() -> Self {
        Self { state: None, checks: true }
    }
}

/// One of the Rust's answers: the next state or why not.
type Outcome = Result<KeyStateSnapshot, Rejection>;

impl Holder {
    pub fn is_empty(&self) -> bool {
        self.state.is_none()
    }

    pub fn state(&self) -> Option<Snapshot> {
        self.state.as_ref().map(rust::snapshot_back)
    }

    /// The checked path: `incept` on an empty holder, `ingest` on a held state.
    pub fn offer(&mut self, record: &Record) -> Answer {
        if let Record::Snapshot(snapshot) = record {
            // 5 is ours: the Rust has no records that bring a state.
            if self.state.is_some() {
                return Answer::plain(5);
            }
            self.load(snapshot);
            return Answer::ACCEPTED;
        }
        let event = rust::event(record);
        let (signatures, receipts): (&[Signature], &[Signature]) = match record {
            Record::Inception(r) => (&r.signatures, &r.receipts),
            Record::Rotation(r) => (&r.signatures, &r.receipts),
            Record::Interaction(r) => (&r.signatures, &r.receipts),
            _ => (&[], &[]),
        };
        let signed = Signed::from_host_asserted_parts(
            &event,
            b"",
            rust::sigers(signatures),
            rust::sigers(receipts),
        );
        let outcome = match &self.state {
            None => KeyState::incept(&signed).map(|state| KeyStateSnapshot::from(&state)),
            Some(held) => self.ingest(held, &signed),
        };
        if let Some(answer) = self.overfull(&event, &outcome) {
            return answer;
        }
        match outcome {
            Ok(next) => {
                if self.checks {
                    self.equals_fold(&event, &next);
                }
                self.state = Some(next);
                Answer::ACCEPTED
            }
            Err(rejection) => {
                let answer = rust::number(&rejection);
                Answer { b: self.clause(record, &answer).unwrap_or(answer.b), ..answer }
            }
        }
    }

    /// b of 27 and 28 is ours: the clause that is short, of the event's own threshold, of the held one
    /// for an interaction, and for 28 of the one that was promised.
    fn clause(&self, record: &Record, answer: &Answer) -> Option<u128> {
        let held = self.state();
        match (answer.number, record, held) {
            (27, Record::Inception(r), _) => {
                Some(clause::of_signatures(&r.keys, &r.threshold, &r.signatures))
            }
            (27, Record::Rotation(r), _) => {
                Some(clause::of_signatures(&r.keys, &r.threshold, &r.signatures))
            }
            (27, Record::Interaction(r), Some(held)) => {
                Some(clause::of_signatures(&held.keys, &held.threshold, &r.signatures))
            }
            (28, Record::Rotation(r), Some(held)) => {
                let (next, shape) = (&held.next, &held.next_threshold);
                Some(clause::of_opening(next, shape, &r.keys, &r.signatures))
            }
            _ => None,
        }
    }

    fn ingest<'a>(&self, held: &'a KeyStateSnapshot, signed: &Signed<'a>) -> Outcome {
        let by_value = held.view().ingest(signed).map(|state| KeyStateSnapshot::from(&state));
        if self.checks {
            let mut state = held.view();
            let lent = state.ingest_mut(signed);
            let after = KeyStateSnapshot::from(&state);
            match (&by_value, &lent) {
                (Ok(next), Ok(())) => assert_eq!(*next, after, "ingest and ingest_mut differ"),
                (Err(one), Err(other)) => {
                    let (one, other) = (format!("{one:?}"), format!("{other:?}"));
                    assert_eq!(one, other, "ingest and ingest_mut refuse differently");
                    assert_eq!(after, *held, "a refused state was changed");
                }
                _ => panic!("ingest says {by_value:?} and ingest_mut {lent:?}"),
            }
        }
        by_value
    }

    /// 38 is ours. Its place is after 18 to 22 and before 30, 31 and 32: so it replaces an
    /// acceptance and those three of a rotation, and nothing else.
    fn overfull(&self, event: &KeriEvent<'_>, outcome: &Outcome) -> Option<Answer> {
        let (Some(held), KeriEvent::Rotation(rotation)) = (&self.state, event) else {
            return None;
        };
        match outcome {
            Ok(_)
            | Err(
                Rejection::WitnessThresholdZeroWithWitnesses { .. }
                | Rejection::WitnessThresholdExceeded { .. }
                | Rejection::InsufficientWitnessReceipts { .. },
            ) => {}
            Err(_) => return None,
        }
        overfull_list(held, rotation)
    }

    /// An accepted state is the one that the unchecked fold gives.
    fn equals_fold(&self, event: &KeriEvent<'_>, next: &KeyStateSnapshot) {
        let folded = match (&self.state, event) {
            (None, KeriEvent::Inception(inception)) => KeyStateSnapshot::genesis(inception),
            (None, _) => panic!("only an inception starts a state"),
            (Some(held), _) => held.clone().advance(event),
        };
        assert_eq!(folded, *next, "the checked and the unchecked path differ");
    }

    /// The unchecked fold: `genesis` and `advance`. A KS is no event and no step of it; here
    /// it starts a new run with the state it brings, whatever was held.
    pub fn fold(&mut self, record: &Record) -> Answer {
        let event = match record {
            Record::Snapshot(snapshot) => {
                self.load(snapshot);
                return Answer::ACCEPTED;
            }
            // Ours: the Rust's `advance` folds delegated events, and that is left out.
            Record::DelegatedInception | Record::DelegatedRotation => return Answer::plain(6),
            _ => rust::event(record),
        };
        let next = match (&self.state, &event) {
            (None, KeriEvent::Inception(inception)) => KeyStateSnapshot::genesis(inception),
            (None, _) => return Answer::plain(8),
            (Some(held), KeriEvent::Rotation(rotation)) => {
                if let Some(answer) = overfull_list(held, rotation) {
                    return answer;
                }
                held.clone().advance(&event)
            }
            (Some(held), _) => held.clone().advance(&event),
        };
        self.state = Some(next);
        Answer::ACCEPTED
    }

    /// Takes a KS record's state, and checks that the Rust gives back what it was given.
    fn load(&mut self, snapshot: &Snapshot) {
        let state = rust::snapshot(snapshot);
        assert_eq!(rust::snapshot_back(&state), *snapshot, "a snapshot changes on its way");
        self.state = Some(state);
    }

    /// Saving, from document 01 alone: 8 for an empty holder, then 41 for too little room.
    pub fn save(&self, room: usize) -> Result<Vec<u8>, Answer> {
        let state = self.state().ok_or(Answer::plain(8))?;
        let bytes = writer::whole(&Record::Snapshot(state)).bytes;
        if bytes.len() > room {
            return Err(Answer::with(41, u128::try_from(bytes.len()).expect("a length"), 0));
        }
        Ok(bytes)
    }
}

fn overfull_list(
    held: &KeyStateSnapshot,
    rotation: &keri_events::RotationEvent<'_>,
) -> Option<Answer> {
    let view = held.view();
    let count = keri::updated_members(
        view.witnesses(),
        rotation.witness_removals(),
        rotation.witness_additions(),
    )
    .count();
    (count > MAX_ITEMS).then(|| Answer::with(38, u128::try_from(count).expect("a count"), 0))
}
