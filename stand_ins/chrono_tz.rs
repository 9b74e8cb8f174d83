//! Stand-ins for types of the crate `chrono-tz`, with its feature `serde`. Compared with chrono-tz 0.6.1.

/// A time zone's name, such as `Europe/Berlin`.
pub struct Tz(String);
