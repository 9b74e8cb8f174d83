//! Stand-ins for types of the crate `slotmap`, versions 1, with its feature `serde`. Compared with slotmap 1.0.6.
//!
//! A type of keys that `new_key_type!` makes has the JSON of `KeyData`; declare it as `struct MyKey(KeyData);`. Left out: the maps, which
//! serde writes as lists of their slots with the free ones.

/// A key.
pub struct KeyData {
    pub idx: u32,
    pub version: u32,
}
/// A key.
pub struct DefaultKey {
    pub idx: u32,
    pub version: u32,
}
