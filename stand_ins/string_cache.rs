//! Stand-ins for types of the crate `string_cache`, versions 0.8, with its feature `serde_support`. Compared with string_cache 0.8.4.
//!
//! The argument of an `Atom` is a type of your own program, which a declaration has to name.

pub struct Atom<Static>(String);
pub struct DefaultAtom(String);
