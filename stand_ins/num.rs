//! Stand-ins for types of the crate `num`, versions 0.2 to 0.4, with its feature `serde`: those of `num-bigint`, `num-rational` and
//! `num-complex`, which it gives on, and which were compared.

/// A whole number: -1, 0 or 1 for its sign, and its digits to the base 2^32, the lowest first.
pub struct BigInt(i8, Vec<u32>);
/// A whole number: its digits to the base 2^32, the lowest first.
pub struct BigUint(Vec<u32>);
/// The sign of a number: -1, 0 or 1.
pub struct Sign(i8);

// The numerator and the denominator.

pub struct Ratio<T>(T, T);
/// A fraction: its numerator and its denominator.
pub struct Rational32(i32, i32);
/// A fraction: its numerator and its denominator.
pub struct Rational64(i64, i64);
/// A fraction: its numerator and its denominator.
pub struct Rational(isize, isize);
// The two are as those of `num-bigint` are.
/// A fraction: its numerator and its denominator.
pub struct BigRational((i8, Vec<u32>), (i8, Vec<u32>));

// The real part and the imaginary part.

pub struct Complex<T>(T, T);
/// A complex number: its real part and its imaginary part.
pub struct Complex32(f32, f32);
/// A complex number: its real part and its imaginary part.
pub struct Complex64(f64, f64);
