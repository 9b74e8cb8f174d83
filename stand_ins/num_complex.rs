//! Stand-ins for types of the crate `num-complex`, versions 0.4, with its feature `serde`. Compared with num-complex 0.4.0.

// The real part and the imaginary part.

pub struct Complex<T>(T, T);
/// A complex number: its real part and its imaginary part.
pub struct Complex32(f32, f32);
/// A complex number: its real part and its imaginary part.
pub struct Complex64(f64, f64);
