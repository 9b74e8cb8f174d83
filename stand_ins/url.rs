//! Stand-ins for types of the crate `url`, versions 2, with its feature `serde`. Compared with url 2.3.1.
//!
//! A `Host` is that of a `String`, without arguments. Left out: `Origin`, which has no JSON.

/// An absolute URL, such as `https://example.org/a?b#c`.
pub struct Url(String);
/// The host of a URL.
pub enum Host {
    Domain(String),
    Ipv4(String),
    Ipv6(String),
}
