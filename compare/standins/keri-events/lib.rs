//! Stand-in root of the `keri-events` crate: names the given modules and re-exports them.
extern crate alloc;

pub mod config;
pub mod error;
pub mod event;
pub mod identifier;
pub mod member_set;
pub mod message_type;
pub mod primitive;
pub mod seal;
pub mod threshold;
pub mod threshold_form;
pub mod toad;

pub use config::ConfigTrait;
pub use error::{InceptionIdentityError, KeriError};
pub use event::{
    DelegatedInceptionEvent, DelegatedRotationEvent, InceptionEvent, InteractionEvent, KeriEvent,
    RotationEvent,
};
pub use identifier::Identifier;
pub use member_set::MemberSetError;
pub use message_type::MessageType;
pub use primitive::{BasicPrefix, Digest, Said, VerifyingKey};
pub use seal::{OpaqueSeal, Seal};
pub use threshold::{SigningThreshold, SigningThresholdError, WeightedThreshold};
pub use threshold_form::ThresholdForm;
pub use toad::{Toad, ToadError};
