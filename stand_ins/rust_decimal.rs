//! Stand-ins for types of the crate `rust_decimal`, versions 1, with its feature `serde` or `serde-str`. Compared with rust_decimal 1.23.1.
//!
//! With `serde` serde reads numbers, too, which the schema refuses. With `serde-float` a `Decimal` is written as a number: declare
//! `struct Decimal(f64);` then. A field with one of the crate's modules, as `#[serde(with = "rust_decimal::serde::float")]`, is what that
//! writes, and is warned of.

/// A decimal number as text, such as `12.50`.
pub struct Decimal(String);
