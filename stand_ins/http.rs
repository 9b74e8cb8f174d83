//! Stand-ins for types of the crate `http`, versions 0.2 and 1. The crate has no JSON of its own: these say what `http_serde` writes, for
//! fields with `#[serde(with = "http_serde::status_code")]` and the like, which are warned of.
//! Not compared: neither `http_serde`, of versions 1 and 2, nor its documentation was at hand.
//!
//! Left out: `HeaderMap`, whose values are texts, bytes or lists of these, as they come; `Version`, a text whose name `semver` has, too;
//! `Request` and `Response`.

/// A method of HTTP, such as `GET`.
pub struct Method(String);
/// A status of HTTP, such as 404.
pub struct StatusCode(u16);
/// A URI, such as `/a?b`.
pub struct Uri(String);
/// The authority of a URI, such as `example.org:80`.
pub struct Authority(String);
