//! Stand-ins for types of the crate `eui48`, versions 1, with its feature `serde`. Compared with eui48 1.1.0.
//!
//! With the feature `serde_bytes` it is a list of numbers.

/// A MAC address, such as `12-34-56-ab-cd-ef`.
pub struct MacAddress(String);
