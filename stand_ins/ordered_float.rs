//! Stand-ins for types of the crate `ordered-float`, with its feature `serde`. Compared with ordered-float 2.10.0.
//!
//! As of `f64`, infinities and NaN are written as null, which the schema refuses and serde does not read.

pub struct OrderedFloat<T>(T);
pub struct NotNan<T>(T);
