//! Stand-ins for types of the crate `fxhash`, versions 0.2: maps and sets of the standard library. Compared with fxhash 0.2.1.

pub struct FxHashMap<K, V>(HashMap<K, V>);
pub struct FxHashSet<T>(HashSet<T>);
