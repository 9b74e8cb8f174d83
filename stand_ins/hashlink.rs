//! Stand-ins for types of the crate `hashlink`, with its feature `serde_impl`. Compared with hashlink 0.8.0.

pub struct LinkedHashMap<K, V>(HashMap<K, V>);
pub struct LinkedHashSet<T>(HashSet<T>);
