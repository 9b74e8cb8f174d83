//! Stand-ins for types of the crate `enumset`, versions 1, with its feature `serde`. Compared with enumset 1.0.12.
//!
//! An enum with `#[enumset(serialize_as_list)]` or another form of its own has other JSON: declare `struct EnumSet<T>(HashSet<T>);` for a
//! list.

// A bit for each variant, the first the lowest.
pub struct EnumSet<T>(u128);
