//! Stand-ins for types of the crate `bstr`, versions 0.2 and 1, with the feature `serde1` or `serde`. Compared with bstr 0.2.17.
//!
//! `serde_json` writes bytes as a list of numbers. serde reads a text, too, as its UTF-8, which the schema refuses.

/// The bytes of a text, as a list of numbers.
pub struct BString(Vec<u8>);
/// The bytes of a text, as a list of numbers.
pub struct BStr(Vec<u8>);
