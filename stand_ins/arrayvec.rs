//! Stand-ins for types of the crate `arrayvec`, versions 0.7, with its feature `serde`. Compared with arrayvec 0.7.2.
//!
//! Of versions up to 0.6 the argument is an array, `ArrayVec<[T; 8]>`, which no declared type takes. How long they may be, no schema says.

pub struct ArrayVec<T, const CAP: usize>(Vec<T>);
pub struct ArrayString<const CAP: usize>(String);
