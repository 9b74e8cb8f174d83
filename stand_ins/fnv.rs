//! Stand-ins for types of the crate `fnv`, versions 1: maps and sets of the standard library. Compared with fnv 1.0.7.

pub struct FnvHashMap<K, V>(HashMap<K, V>);
pub struct FnvHashSet<T>(HashSet<T>);
