//! Stand-ins for types of the crate `linked-hash-map`, versions 0.5, with its feature `serde_impl`. Compared with linked-hash-map 0.5.6.

pub struct LinkedHashMap<K, V>(HashMap<K, V>);
