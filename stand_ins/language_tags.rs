//! Stand-ins for types of the crate `language-tags`, versions 0.3, with its feature `serde`. Compared with language-tags 0.3.2.

/// A tag of a language, by RFC 5646, such as `en-US`.
pub struct LanguageTag(String);
