//! Stand-ins for types of the crate `enum-map`, versions 1 and 2, with its feature `serde`. Compared with enum-map 2.4.1.
//!
//! serde asks for each of the keys, which the schema does not.

pub struct EnumMap<K, V>(HashMap<K, V>);
