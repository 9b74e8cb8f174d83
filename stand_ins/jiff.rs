//! Stand-ins for types of the crate `jiff`, versions 0.2, with its feature `serde`: each as its `FromStr` and `Display` have it.
//! Not compared: neither the crate nor its documentation was at hand.

/// A point in time, by RFC 3339, such as `2024-02-29T12:30:00.5Z`.
pub struct Timestamp(String);
/// A date and time with its time zone, by RFC 9557, such as `2024-02-29T12:30:00+01:00[Europe/Berlin]`.
pub struct Zoned(String);
/// A date, by ISO 8601, such as `2024-02-29`.
pub struct Date(String);
/// A time of day, such as `23:59:59.5`.
pub struct Time(String);
/// A date and time without an offset, such as `2024-02-29T12:30:00`.
pub struct DateTime(String);
/// A span of calendar units and time, by ISO 8601, such as `P1M2DT3H`.
pub struct Span(String);
/// A span of time, by ISO 8601, such as `PT1.5S`.
pub struct SignedDuration(String);
