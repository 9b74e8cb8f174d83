//! Stand-ins for types of the crate `bigdecimal`, versions 0.3 and 0.4, with its feature `serde`. Compared with bigdecimal 0.3.0.
//!
//! Without `string-only` serde reads numbers, too, which the schema refuses.

/// A decimal number as text, such as `12.50`.
pub struct BigDecimal(String);
