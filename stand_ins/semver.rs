//! Stand-ins for types of the crate `semver`, versions 1, with its feature `serde`. Compared with semver 1.0.14.
//!
//! Left out: `Prerelease`, `BuildMetadata` and `Op`, which have no JSON.

/// A version, such as `1.2.3-rc.1+build`.
pub struct Version(String);
/// A requirement of versions, such as `>=1.2, <2`.
pub struct VersionReq(String);
/// One comparison of a requirement, such as `>=1.2`.
pub struct Comparator(String);
