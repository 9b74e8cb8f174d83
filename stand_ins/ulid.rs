//! Stand-ins for types of the crate `ulid`, versions 1, with its feature `serde`: its text.
//! Not compared: neither the crate nor its documentation was at hand.

/// A ULID, such as `01D39ZY06FGSCTVN4T2V9PKHFZ`.
pub struct Ulid(String);
