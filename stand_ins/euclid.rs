//! Stand-ins for types of the crate `euclid`, versions 0.20, with its feature `serde`. Compared with euclid 0.20.0. Version 0.19 has other
//! names and writes some of these in another form.
//!
//! The last arguments are units, types of your own program, which a declaration has to name. The types of the module `default` have the
//! number's type as their only argument, and no declaration here takes that. `EuclidUnit` is no type of the crate: it is null alone, as
//! serde writes a unit in some of them.

/// No unit, an argument of other types.
pub struct UnknownUnit(String);
#[serde(untagged)]
pub enum EuclidUnit {
    Null,
}

// Lists of coordinates, or of width, height and depth.

pub struct Point2D<T, U>(T, T);
pub struct Point3D<T, U>(T, T, T);
pub struct Vector2D<T, U>(T, T);
pub struct Vector3D<T, U>(T, T, T);
pub struct HomogeneousVector<T, U>(T, T, T, T);
pub struct Size2D<T, U>(T, T);
pub struct Size3D<T, U>(T, T, T);
pub struct Length<T, Unit>(T);

// Boxes.

pub struct Rect<T, U> {
    pub origin: Point2D<T, U>,
    pub size: Size2D<T, U>,
}
pub struct Box2D<T, U> {
    pub min: Point2D<T, U>,
    pub max: Point2D<T, U>,
}
pub struct Box3D<T, U> {
    pub min: Point3D<T, U>,
    pub max: Point3D<T, U>,
}
pub struct NonEmpty<T>(T);
pub struct SideOffsets2D<T, U> {
    pub top: T,
    pub right: T,
    pub bottom: T,
    pub left: T,
    pub _unit: EuclidUnit,
}

// Transformations.

pub struct Angle<T> {
    pub radians: T,
}
pub struct Rotation2D<T, Src, Dst> {
    /// In radians.
    pub angle: T,
    pub _unit: EuclidUnit,
}
pub struct Rotation3D<T, Src, Dst> {
    pub i: T,
    pub j: T,
    pub k: T,
    /// The real part.
    pub r: T,
    pub _unit: EuclidUnit,
}
pub struct Scale<T, Src, Dst>(T, EuclidUnit);
pub struct Translation2D<T, Src, Dst> {
    pub x: T,
    pub y: T,
    pub _unit: EuclidUnit,
}
pub struct Translation3D<T, Src, Dst>(T, T, T);
pub struct RigidTransform3D<T, Src, Dst> {
    pub rotation: Rotation3D<T, Src, Dst>,
    pub translation: Vector3D<T, Dst>,
}
// Row by row.
pub struct Transform2D<T, Src, Dst>(T, T, T, T, T, T);
pub struct Transform3D<T, Src, Dst>(T, T, T, T, T, T, T, T, T, T, T, T, T, T, T, T);
