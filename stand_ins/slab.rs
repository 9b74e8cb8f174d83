//! Stand-ins for types of the crate `slab`, versions 0.4, with its feature `serde`. Compared with slab 0.4.4.

// Values by their keys, which are numbers written as texts.
pub struct Slab<T>(HashMap<String, T>);
