//! Stand-ins for types of the crate `indexmap`, versions 1 and 2, with its feature `serde`. Compared with indexmap 1.9.2.
//!
//! `IndexMap` is built in. A field with `#[serde(with = "indexmap::map::serde_seq")]` is a list of pairs, and is warned of.

pub struct IndexSet<T>(HashSet<T>);
