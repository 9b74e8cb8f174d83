//! Stand-ins for types of the crate `lyon_geom`, versions 0.15, with its feature `serialization`. Compared with lyon_geom 0.15.0.
//!
//! `Point`, `Vector`, `Size`, `Rect`, `Transform` and `Angle` are those of the module `math`, of `f32`. In `generic_math` they have an
//! argument, which no declaration here takes. Left out: `Arc`, whose name is that of a built-in pointer, and `SvgArc`, which both have an
//! angle with an argument; and `Rotation`, `Translation` and `Scale`, names for types that `euclid.rs` has.

/// A point: x and y.
pub struct Point(f32, f32);
/// A point: x and y.
pub struct F64Point(f64, f64);
/// A vector: x and y.
pub struct Vector(f32, f32);
/// A size: its width and its height.
pub struct Size(f32, f32);
/// A rectangle.
pub struct Rect {
    /// x and y.
    pub origin: (f32, f32),
    /// Width and height.
    pub size: (f32, f32),
}
/// A transformation: its matrix, row by row.
pub struct Transform(f32, f32, f32, f32, f32, f32);
/// An angle.
pub struct Angle {
    pub radians: f32,
}
pub struct ArcFlags {
    pub large_arc: bool,
    pub sweep: bool,
}

// Points and vectors are x and y. serde reads no shorter lists, which the schemas accept.

pub struct LineSegment<S> {
    pub from: (S, S),
    pub to: (S, S),
}
pub struct Line<S> {
    pub point: (S, S),
    pub vector: (S, S),
}
// The line where `a * x + b * y + c` is 0.
pub struct LineEquation<S> {
    a: S,
    b: S,
    c: S,
}
pub struct Triangle<S> {
    pub a: (S, S),
    pub b: (S, S),
    pub c: (S, S),
}
pub struct QuadraticBezierSegment<S> {
    pub from: (S, S),
    pub ctrl: (S, S),
    pub to: (S, S),
}
pub struct CubicBezierSegment<S> {
    pub from: (S, S),
    pub ctrl1: (S, S),
    pub ctrl2: (S, S),
    pub to: (S, S),
}
