//! Stand-ins for types of the crate `unic-langid`, versions 0.9, with its feature `serde`. Compared with unic-langid 0.9.0.

/// An identifier of a language, such as `en-US`.
pub struct LanguageIdentifier(String);
