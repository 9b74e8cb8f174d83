//! Stand-ins for types of the crate `zeroize`, versions 1, with its feature `serde`. Compared with zeroize 1.5.7.

pub struct Zeroizing<T>(T);
