//! Stand-ins for types of the crate `either`, versions 1, with its feature `serde`. Compared with either 1.6.1.
//!
//! A field with `#[serde(with = "either::serde_untagged")]` is the value alone, and is warned of.

pub enum Either<L, R> {
    Left(L),
    Right(R),
}
