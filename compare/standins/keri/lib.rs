//! Stand-in root of the `keri` crate: names the given modules and lends what is private in them.
extern crate alloc;
// Shadows the derive `Eq` in this crate, so that the snapshot gets a constructor.
#[macro_use]
extern crate eq_and_parts;

mod authority;
mod delegation;
mod error;
mod state;
mod verification;

pub use authority::{Authority, Commitment, Establishment, Verified, Witnessing};
pub use error::{
    DelegationError, Rejection, StructuralError, TransferabilityError, WitnessSetError,
};
pub use state::{EstablishmentRef, KeyState, KeyStateSnapshot, Signed, Transferability};

/// `KeyState::updated_members`, which is private to this crate.
pub fn updated_members<'a, 'p>(
    current: &'a [keri_events::BasicPrefix<'p>],
    cuts: &'a [keri_events::BasicPrefix<'p>],
    additions: &'a [keri_events::BasicPrefix<'p>],
) -> impl Iterator<Item = &'a keri_events::BasicPrefix<'p>> + 'a {
    KeyState::updated_members(current, cuts, additions)
}
