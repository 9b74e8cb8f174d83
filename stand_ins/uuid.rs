//! Stand-ins for types of the crate `uuid`, versions 1, with its feature `serde`. Compared with uuid 1.2.1.
//!
//! `NonNilUuid` is of later versions, and was not compared. Left out: `Timestamp`, `Variant` and `Version`,
//! which have no JSON. serde reads a `Uuid` in any of the four forms; all are texts.

/// A UUID, such as `67e55044-10b1-426f-9247-bb680e5fe0c8`.
pub struct Uuid(String);
/// A UUID other than the one of zeros, such as `67e55044-10b1-426f-9247-bb680e5fe0c8`.
pub struct NonNilUuid(String);
/// A UUID, such as `67e55044-10b1-426f-9247-bb680e5fe0c8`.
pub struct Hyphenated(String);
/// A UUID, such as `67e5504410b1426f9247bb680e5fe0c8`.
pub struct Simple(String);
/// A UUID, such as `urn:uuid:67e55044-10b1-426f-9247-bb680e5fe0c8`.
pub struct Urn(String);
/// A UUID, such as `{67e55044-10b1-426f-9247-bb680e5fe0c8}`.
pub struct Braced(String);
