//! Stand-ins for types of the crate `email_address`, with its feature `serde_support`: a text.
//! Not compared: neither the crate nor its documentation was at hand.

/// An address of e-mail, such as `name@example.org`.
pub struct EmailAddress(String);
