//! Stand-ins for types of the crate `time`, versions 0.3, with its feature `serde`, or `serde-human-readable`. Compared with time 0.3.9.
//!
//! With `serde` alone all are lists of numbers, or numbers; with `serde-human-readable` they are texts. A stand-in says both, since a
//! declaration does not know the features: copy those that you name into a file of your own, and cut out what your features do not
//! write, for a narrower schema. A field with one of time's modules, as `#[serde(with = "time::serde::rfc3339")]`, is a text as well, or a
//! number, and is warned of.
//!
//! Left out: `Instant`, which has no JSON.

/// A date: year and day of the year, or a text such as `2024-02-29`.
#[serde(untagged)]
pub enum Date {
    Numbers(i32, u16),
    Text(String),
}
/// A time of day: hour, minute, second and nanosecond, or a text such as `23:59:59.5`.
#[serde(untagged)]
pub enum Time {
    Numbers(u8, u8, u8, u32),
    Text(String),
}
/// A date and time: year, day of the year, hour, minute, second and nanosecond, or a text such as `2024-02-29 23:59:59.5`.
#[serde(untagged)]
pub enum PrimitiveDateTime {
    Numbers(i32, u16, u8, u8, u8, u32),
    Text(String),
}
/// A date and time with its offset from UTC: year, day of the year, hour, minute, second, nanosecond, and the offset in hours, minutes and
/// seconds, or a text such as `2024-02-29 23:59:59.5 +00:00:00`.
#[serde(untagged)]
pub enum OffsetDateTime {
    Numbers(i32, u16, u8, u8, u8, u32, i8, i8, i8),
    Text(String),
}
/// An offset from UTC: hours, minutes and seconds, or a text such as `+01:00:00`.
#[serde(untagged)]
pub enum UtcOffset {
    Numbers(i8, i8, i8),
    Text(String),
}
/// A span of time: seconds and nanoseconds, or a text such as `1.500000000`.
#[serde(untagged)]
pub enum Duration {
    Numbers(i64, i32),
    Text(String),
}
/// A day of the week: 1 for Monday to 7, or a text such as `Monday`.
#[serde(untagged)]
pub enum Weekday {
    Number(u8),
    Text(String),
}
/// A month: 1 for January to 12, or a text such as `January`.
#[serde(untagged)]
pub enum Month {
    Number(u8),
    Text(String),
}
