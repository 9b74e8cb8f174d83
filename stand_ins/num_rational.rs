//! Stand-ins for types of the crate `num-rational`, versions 0.4, with its feature `serde`. Compared with num-rational 0.4.1.
//!
//! serde reads no denominator 0.

// The numerator and the denominator.

pub struct Ratio<T>(T, T);
/// A fraction: its numerator and its denominator.
pub struct Rational32(i32, i32);
/// A fraction: its numerator and its denominator.
pub struct Rational64(i64, i64);
/// A fraction: its numerator and its denominator.
pub struct Rational(isize, isize);
// The two are as those of `num-bigint` are.
/// A fraction: its numerator and its denominator.
pub struct BigRational((i8, Vec<u32>), (i8, Vec<u32>));
