//! Stand-ins for types of the crate `num-bigint`, versions 0.2 to 0.4, with its feature `serde`. Compared with num-bigint 0.4.3.

/// A whole number: -1, 0 or 1 for its sign, and its digits to the base 2^32, the lowest first.
pub struct BigInt(i8, Vec<u32>);
/// A whole number: its digits to the base 2^32, the lowest first.
pub struct BigUint(Vec<u32>);
/// The sign of a number: -1, 0 or 1.
pub struct Sign(i8);
