//! Values of the types of geometry.

use crate::crates::{Color, Right};
use crate::row;

const NO: [&str; 5] = ["1", "null", r#"{"x":1,"y":2}"#, r#""1""#, "[null,null]"];

pub fn print() {
    coordinates();
    boxes();
    transformations();
    curves();
}

fn coordinates() {
    use euclid::{HomogeneousVector, Length, Point2D, Point3D, Size2D, Size3D, UnknownUnit, Vector2D, Vector3D};
    let pair = ["[1]", "[1,2,3]"];
    let triple = ["[1,2]", "[1,2,3,4]"];
    row!("euclid", Point2D<f32, UnknownUnit>).writes([Point2D::new(0.5, f32::MIN), Point2D::zero()]).refuses(&NO).refuses(&pair);
    row!("euclid", Point2D<u8, Color>).writes([Point2D::new(0, 255)]).refuses(&NO).refuses(&["[1,-1]"]);
    row!("euclid", Point3D<i8, UnknownUnit>).writes([Point3D::new(-128, 0, 127)]).refuses(&NO).refuses(&triple);
    row!("euclid", Vector2D<f64, Color>).writes([Vector2D::new(-0.0, f64::MAX)]).refuses(&NO).refuses(&pair);
    row!("euclid", Vector3D<u64, UnknownUnit>).writes([Vector3D::new(0, 1, u64::MAX)]).refuses(&NO).refuses(&triple);
    row!("euclid", HomogeneousVector<i32, UnknownUnit>).writes([HomogeneousVector::new(1, 2, -3, 4)]).refuses(&NO).refuses(&["[1,2,3]"]);
    row!("euclid", Size2D<u8, Color>).writes([Size2D::new(1, 2)]).refuses(&NO).refuses(&pair).refuses(&[r#"{"width":1,"height":2}"#]);
    row!("euclid", Size3D<u8, UnknownUnit>).writes([Size3D::new(1, 2, 3)]).refuses(&NO).refuses(&triple);
    row!("euclid", Length<u8, Color>).writes([Length::new(255)]).refuses(&["[1]", "-1", "null"]);
}

fn boxes() {
    use euclid::{point2, point3, size2, Box2D, Box3D, NonEmpty, Rect, SideOffsets2D, UnknownUnit};
    let rect = Rect::new(point2(-1, 2), size2(3, 4));
    row!("euclid", Rect<i8, UnknownUnit>).writes([rect]).refuses(&NO).refuses(&[
        r#"{"origin":[1,2]}"#,
        r#"{"origin":[1,2],"size":[1]}"#,
        r#"{"origin":{"x":1,"y":2},"size":[1,2]}"#,
    ]);
    let square = Box2D::new(point2(1u8, 2), point2(3, 4));
    row!("euclid", Box2D<u8, Color>).writes([square]).refuses(&NO).refuses(&[r#"{"min":[1,2]}"#, r#"{"min":[1,2],"max":[1,2,3]}"#]);
    row!("euclid", NonEmpty<Box2D<u8, Color>>).writes(square.to_non_empty()).refuses(&NO);
    row!("euclid", Box3D<f32, UnknownUnit>)
        .writes([Box3D::new(point3(0.5, 1.0, 2.0), point3(3.0, 4.0, 5.0))])
        .refuses(&NO)
        .refuses(&[r#"{"min":[1,2],"max":[1,2]}"#]);
    row!("euclid", SideOffsets2D<u8, Color>).writes([SideOffsets2D::new(1, 2, 3, 4)]).refuses(&NO).refuses(&[
        r#"{"top":1,"right":2,"bottom":3,"left":4}"#,
        r#"{"top":1,"right":2,"bottom":3,"left":4,"_unit":1}"#,
        r#"{"top":1,"right":2,"bottom":3,"_unit":null}"#,
    ]);
}

fn transformations() {
    use euclid::{
        vec3, Angle, RigidTransform3D, Rotation2D, Rotation3D, Scale, Transform2D, Transform3D, Translation2D, Translation3D, UnknownUnit,
    };
    row!("euclid", Angle<f32>).writes([Angle::radians(0.5), Angle::pi()]).refuses(&NO).refuses(&["{}", "[]"]);
    row!("euclid", Rotation2D<f32, UnknownUnit, Color>)
        .writes([Rotation2D::radians(0.5)])
        .refuses(&NO)
        .refuses(&[r#"{"angle":1}"#, r#"{"angle":1,"_unit":0}"#]);
    row!("euclid", Rotation3D<f32, UnknownUnit, UnknownUnit>)
        .writes([Rotation3D::identity()])
        .refuses(&NO)
        .refuses(&[r#"{"i":1,"j":1,"k":1,"r":1}"#]);
    let turn = Rotation3D::<f32, Right, Right>::around_x(Angle::radians(0.5));
    row!("euclid", RigidTransform3D<f32, Right, Right>)
        .writes([RigidTransform3D::new(turn, vec3(1.0, 2.0, 3.0))])
        .refuses(&NO)
        .refuses(&[r#"{"rotation":{"i":1,"j":1,"k":1,"r":1,"_unit":null},"translation":{"x":1}}"#, r#"{"translation":[1,2,3]}"#]);
    row!("euclid", Scale<u8, UnknownUnit, Color>).writes([Scale::new(7)]).refuses(&NO).refuses(&["[1]", "[1,1]", "[-1,null]"]);
    row!("euclid", Translation2D<i8, UnknownUnit, Color>)
        .writes([Translation2D::new(-1, 2)])
        .refuses(&NO)
        .refuses(&[r#"{"x":1,"_unit":null}"#]);
    row!("euclid", Translation3D<i8, UnknownUnit, Color>).writes([Translation3D::new(-1, 2, 3)]).refuses(&NO).refuses(&["[1,2]"]);
    row!("euclid", Transform2D<f64, UnknownUnit, Color>)
        .writes([Transform2D::row_major(1.0, 2.5, 3.0, 4.0, 5.0, f64::MIN)])
        .refuses(&NO)
        .refuses(&["[1,2,3,4,5]", "[[1,2],[3,4],[5,6]]"]);
    row!("euclid", Transform3D<f32, UnknownUnit, Color>)
        .writes([Transform3D::identity()])
        .refuses(&NO)
        .refuses(&["[1,2,3,4,5,6,7,8,9,10,11,12,13,14,15]"]);
}

fn curves() {
    use lyon_geom::math::{point, size, vector, Angle, F64Point, Point, Rect, Size, Transform, Vector};
    row!("lyon_geom", Point).writes([point(0.5, f32::MAX)]).refuses(&NO).refuses(&["[1]"]);
    row!("lyon_geom", F64Point).writes([F64Point::new(0.5, f64::MAX)]).refuses(&NO).refuses(&["[1]"]);
    row!("lyon_geom", Vector).writes([vector(-0.5, 1.0)]).refuses(&NO).refuses(&["[1]"]);
    row!("lyon_geom", Size).writes([size(0.5, 1.0)]).refuses(&NO).refuses(&["[1]"]);
    row!("lyon_geom", Rect)
        .writes([Rect::new(point(0.5, 1.0), size(2.0, 3.0))])
        .refuses(&NO)
        .refuses(&[r#"{"origin":[1,2]}"#, r#"{"origin":[1,2,3],"size":[1,2]}"#])
        .wider(&[r#"{"origin":[1,2],"size":[1]}"#]);
    row!("lyon_geom", Transform).writes([Transform::create_scale(2.0, 0.5)]).refuses(&NO).refuses(&["[1,2,3,4,5]"]);
    row!("lyon_geom", Angle).writes([Angle::radians(-0.5)]).refuses(&NO).refuses(&["{}"]);
    let (from, to) = (point(0.5, 1.0), point(2.0, 3.0));
    use lyon_geom::{ArcFlags, CubicBezierSegment, Line, LineEquation, LineSegment, QuadraticBezierSegment, Triangle};
    row!("lyon_geom", ArcFlags).writes([ArcFlags { large_arc: true, sweep: false }]).refuses(&NO).refuses(&[r#"{"large_arc":true}"#]);
    row!("lyon_geom", LineSegment<f32>).writes([LineSegment { from, to }]).refuses(&NO).refuses(&[r#"{"from":[1,2]}"#]);
    let line = Line { point: from, vector: vector(1.0, 2.0) };
    row!("lyon_geom", Line<f32>)
        .writes([line])
        .refuses(&NO)
        .refuses(&[r#"{"point":[1,2]}"#, r#"{"point":[1,2],"vector":[1,2,3]}"#])
        .wider(&[r#"{"point":[1,2],"vector":[1]}"#]);
    row!("lyon_geom", LineEquation<f32>).writes([line.equation()]).refuses(&NO).refuses(&[r#"{"a":1,"b":2}"#]);
    row!("lyon_geom", Triangle<f32>).writes([Triangle { a: from, b: to, c: from }]).refuses(&NO).refuses(&[r#"{"a":[1,2],"b":[1,2]}"#]);
    row!("lyon_geom", QuadraticBezierSegment<f32>)
        .writes([QuadraticBezierSegment { from, ctrl: to, to }])
        .refuses(&NO)
        .refuses(&[r#"{"from":[1,2],"to":[1,2]}"#]);
    row!("lyon_geom", CubicBezierSegment<f32>)
        .writes([CubicBezierSegment { from, ctrl1: to, ctrl2: from, to }])
        .refuses(&NO)
        .refuses(&[r#"{"from":[1,2],"ctrl":[1,2],"to":[1,2]}"#]);
}
