//! Stand-ins for types of the crate `ecow`, with its feature `serde`: a text and a list.
//! Not compared: neither the crate nor its documentation was at hand.

pub struct EcoString(String);
pub struct EcoVec<T>(Vec<T>);
