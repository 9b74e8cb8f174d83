//! Stand-ins for types of the crate `half`, versions 1 and 2, with its feature `serde`. Compared with half 1.6.0.

/// The bits of a number of 16 bits.
pub struct f16(u16);
/// The bits of a number of 16 bits.
pub struct bf16(u16);
