//! Stand-ins for types of the crate `rustc-hash`, versions 1 and 2: maps and sets of the standard library. Compared with rustc-hash 1.1.0.

pub struct FxHashMap<K, V>(HashMap<K, V>);
pub struct FxHashSet<T>(HashSet<T>);
