//! Stand-ins for types of the crate `bytes`, versions 1, with its feature `serde`. Compared with bytes 1.2.1.
//!
//! `serde_json` writes bytes as a list of numbers. serde reads a text, too, as its UTF-8, which the schema refuses.

/// Bytes, as a list of numbers.
pub struct Bytes(Vec<u8>);
/// Bytes, as a list of numbers.
pub struct BytesMut(Vec<u8>);
