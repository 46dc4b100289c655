//! The numbers that a call is refused by (docs/REFUSALS.md).

/// Below 10, so that its line has one digit behind a zero.
#[derive(Clone, Copy, Debug, PartialEq, Eq)]
pub struct Refusal(pub u8);

pub const NO_PORT: Refusal = Refusal(3);
pub const NO_DEVICE: Refusal = Refusal(4);
pub const OUT_OF_RANGE: Refusal = Refusal(5);
pub const NO_FIELD: Refusal = Refusal(6);
pub const NOT_SELF_CLEARING: Refusal = Refusal(7);
