//! Stand-ins for types of the crate `cargo-platform`, versions 0.1. Compared with cargo-platform 0.1.2.
//!
//! Left out: `Cfg` and `CfgExpr`, which have no JSON.

/// A platform, as its name, such as `x86_64-unknown-linux-gnu`, or as a condition, such as `cfg(unix)`.
pub struct Platform(String);
