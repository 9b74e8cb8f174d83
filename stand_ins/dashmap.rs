//! Stand-ins for types of the crate `dashmap`, versions 5 and 6, with its feature `serde`. Compared with dashmap 5.4.0.

pub struct DashMap<K, V>(HashMap<K, V>);
pub struct DashSet<T>(HashSet<T>);
