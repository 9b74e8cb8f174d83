//! Stand-ins for types of the crate `kstring`, versions 2, with its feature `serde`. Compared with kstring 2.0.0.

pub struct KString(String);
pub struct KStringRef<'s>(&'s str);
pub struct KStringCow<'s>(&'s str);
