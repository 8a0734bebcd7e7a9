//! Stand-in for threshold_form.rs: how a threshold is written on the wire, never looked at here.

#[derive(Clone, Copy, Debug, PartialEq, Eq)]
pub enum ThresholdForm {
    Integer,
}
