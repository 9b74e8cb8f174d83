//! Stand-ins for types of the crate `serde_bytes`, versions 0.11. Compared with serde_bytes 0.11.5.
//!
//! `serde_json` writes bytes as a list of numbers. serde reads a text, too, as its UTF-8, which the schema refuses. `ByteArray` is of
//! later versions, and was not compared. A field with `#[serde(with = "serde_bytes")]` is the same list, and
//! is warned of.

/// Bytes, as a list of numbers.
pub struct ByteBuf(Vec<u8>);
/// Bytes, as a list of numbers.
pub struct Bytes(Vec<u8>);
/// Bytes, as a list of numbers.
pub struct ByteArray<const N: usize>(Vec<u8>);
