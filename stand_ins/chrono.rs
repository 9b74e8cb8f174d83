//! Stand-ins for types of the crate `chrono`, versions 0.4, with its feature `serde`. Compared with chrono 0.4.23.
//!
//! A field with one of chrono's modules, as `#[serde(with = "chrono::serde::ts_seconds")]`, is a number in JSON, and is warned of.
//!
//! Left out: `Date<Tz>`, `IsoWeek` and the results of calendar computations, which have no JSON; and `Duration` or `TimeDelta`, which
//! has none in 0.4.23, and was compared with no later version.

// The zone says in which offset a `DateTime` is written. serde has no JSON of the zones themselves: they are declared, so that an
// argument can name them.

/// A date and time with its offset from UTC, by RFC 3339, such as `2024-02-29T12:30:00.5Z`.
pub struct DateTime<Tz>(String);
/// The time zone UTC, an argument of date and time types.
pub struct Utc(String);
/// The local time zone, an argument of date and time types.
pub struct Local(String);
/// An offset from UTC, an argument of date and time types.
pub struct FixedOffset(String);
/// A date, by ISO 8601, such as `2024-02-29`.
pub struct NaiveDate(String);
/// A time of day, such as `23:59:59.999`.
pub struct NaiveTime(String);
/// A date and time without an offset, such as `2024-02-29T12:30:00.5`.
pub struct NaiveDateTime(String);

// Read are long names, too, and letters of any case: `"monday"`, `"jan"`. These are what is written.

/// A day of the week.
pub enum Weekday {
    Mon,
    Tue,
    Wed,
    Thu,
    Fri,
    Sat,
    Sun,
}
/// A month.
pub enum Month {
    January,
    February,
    March,
    April,
    May,
    June,
    July,
    August,
    September,
    October,
    November,
    December,
}
