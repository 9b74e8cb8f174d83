//! Stand-ins for types of the crate `serde_json`, versions 1; `RawValue` needs its feature `raw_value`. Compared with serde_json 1.0.87.
//!
//! `Value` and `Map` are built in.

pub struct Number(f64);
/// Any JSON value.
pub struct RawValue(Value);
