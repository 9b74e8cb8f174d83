//! Stand-ins for types of the crate `enumflags2`, with its feature `serde`. Compared with enumflags2 0.6.4.

// A bit for each variant, by its discriminant.
pub struct BitFlags<T>(u64);
