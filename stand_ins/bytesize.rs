//! Stand-ins for types of the crate `bytesize`, versions 1.0 and 1.1, with its feature `serde`. Compared with bytesize 1.1.0.
//!
//! Later versions, which were not compared, write a text, such as `"1.5 KiB"`: declare `struct ByteSize(String);` then.

/// A number of bytes.
pub struct ByteSize(u64);
