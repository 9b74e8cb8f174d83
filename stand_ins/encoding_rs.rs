//! Stand-ins for types of the crate `encoding_rs`, versions 0.8, with its feature `serde`. Compared with encoding_rs 0.8.31.

/// An encoding's name, such as `UTF-8`.
pub struct Encoding(String);
