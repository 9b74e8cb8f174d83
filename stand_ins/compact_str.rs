//! Stand-ins for types of the crate `compact_str`, with its feature `serde`: a text.
//! Not compared: neither the crate nor its documentation was at hand.

pub struct CompactString(String);
