//! What the last name of a type's path says.

use crate::parts::names_holding;
use anyhow::Context;
use rows::given::{pair_of, text_of};
use serde_json::Value;
use std::alloc::{AllocError, Global};
use syntax::parse_type;
use type_tree::{PrimitiveType, SchemaType, TypeTree};

/// The tests of a type that hold.
fn holding(alloc: Global, ty: &SchemaType<'_>) -> Result<String, AllocError> {
    let tests = [
        ("is_primitive", ty.is_primitive()),
        ("is_integer", ty.is_integer()),
        ("is_unsigned_integer", ty.is_unsigned_integer()),
        ("is_number", ty.is_number()),
        ("is_string", ty.is_string()),
        ("is_byte", ty.is_byte()),
        ("is_value", ty.is_value()),
    ];
    names_holding(alloc, tests.as_slice())
}

/// The word of the type, and its tests that hold.
fn type_text(alloc: Global, ty: &SchemaType<'_>) -> Result<String, AllocError> {
    format!(in alloc; "{:?}: {}", ty.type_word(), holding(alloc, ty)?)
}

/// The word and the tests of a type. The second of the list is whether null is a value.
pub(crate) fn tests(alloc: Global, given: &Value) -> anyhow::Result<String> {
    let (written, nullable) = pair_of(given)?;
    let written = parse_type(alloc, text_of(written)?)?;
    let ty = SchemaType {
        path: TypeTree::from_type(alloc, &written)?
            .path
            .context("a path")?,
        nullable: nullable.as_bool().context("a truth value")?,
    };
    Ok(type_text(alloc, &ty)?)
}

/// The name of the built-in type.
pub(crate) fn primitive(alloc: Global, given: &Value) -> anyhow::Result<String> {
    let written = parse_type(alloc, text_of(given)?)?;
    let path = TypeTree::from_type(alloc, &written)?
        .path
        .context("a path")?;
    let name = match PrimitiveType::new(&path) {
        Some(primitive) => primitive.ty.name(),
        None => "no primitive",
    };
    Ok(String::from_str(alloc, name)?)
}
