//! Stand-ins for types of the crate `smartstring`, versions 1, with its feature `serde`: a text.
//! Not compared: neither the crate nor its documentation was at hand.
//! The arguments `LazyCompact` and `Compact` have no JSON; `smartstring::alias::String` is the built-in `String`.

pub struct SmartString<Mode>(String);
/// How a `SmartString` is kept.
pub struct LazyCompact(String);
/// How a `SmartString` is kept.
pub struct Compact(String);
