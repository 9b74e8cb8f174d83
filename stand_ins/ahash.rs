//! Stand-ins for types of the crate `ahash`, versions 0.7 and 0.8, with its feature `serde`. Compared with ahash 0.7.6.

pub struct AHashMap<K, V>(HashMap<K, V>);
pub struct AHashSet<T>(HashSet<T>);
