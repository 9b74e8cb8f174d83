//! Stand-ins for types of the crate `secrecy`, versions 0.8 to 0.10, with its feature `serde`. Compared with secrecy 0.8.0,
//! but for `SecretBox`.
//!
//! Each is read as what it holds. Only a secret of a type that is `SerializableSecret` is written, as that; no text is.

pub struct Secret<T>(T);
pub struct SecretBox<T>(T);
pub struct SecretVec<T>(Vec<T>);
/// A secret text.
pub struct SecretString(String);
