//! Schemas as rows write them.
//!
//! A text is a reference to the component of that name. An object says by its member `is` what it is (`object`, `array`,
//! `oneOf`, `allOf` or `reference`), and its other members are those of the schema's JSON, where each schema in it is a
//! text. A list has schemas of which each may have `@` for the one before; it stands for the last.

use crate::annotations::{annotations, jsons, text};
use anyhow::{Context, bail};
use filling::copy_schema;
use rows::given::{is_said, items_at, text_at, text_of};
use schema_core::{
    Additional, AllOfSchema, Annotations, Array, ArrayItems, Bound, Object, OneOfSchema, RefLeaf,
    Schema, SchemaTypeInner, Tree, TypeWord,
};
use serde_json::Value;
use std::alloc::Global;
use texts::{List, Text};

fn word(given: &Value) -> anyhow::Result<SchemaTypeInner> {
    match given.as_str().context("a word of a type")? {
        "object" => Ok(SchemaTypeInner::Object),
        "string" => Ok(SchemaTypeInner::String),
        "integer" => Ok(SchemaTypeInner::Integer),
        "number" => Ok(SchemaTypeInner::Number),
        "boolean" => Ok(SchemaTypeInner::Boolean),
        "array" => Ok(SchemaTypeInner::Array),
        "null" => Ok(SchemaTypeInner::Null),
        other => bail!("no type {other}"),
    }
}

fn type_word(given: &Value) -> anyhow::Result<TypeWord> {
    match given.get("type") {
        None => Ok(TypeWord::Any),
        Some(Value::Array(words)) => {
            let first = words.first().context("a type")?;
            Ok(TypeWord::Nullable(word(first)?))
        }
        Some(one) => Ok(TypeWord::One(word(one)?)),
    }
}

fn bound(given: &Value, name: &str) -> Option<Bound> {
    let number = given.get(name).and_then(Value::as_number)?;
    number.as_i128().and_then(Bound::new)
}

/// A schema in another: the one before, or a reference.
fn part(alloc: Global, before: &Option<Schema>, given: &Value) -> anyhow::Result<Schema> {
    match given.as_str().context("a schema in another is a text")? {
        "@" => {
            let before = before.as_ref().context("no schema before")?;
            Ok(copy_schema(alloc, before)?)
        }
        name => Ok(Tree::Leaf(RefLeaf {
            name: Text::new(alloc, name)?,
            annotations: Annotations::new(),
        })),
    }
}

fn parts(
    alloc: Global,
    before: &Option<Schema>,
    given: &Value,
    name: &'static str,
) -> anyhow::Result<List<Schema>> {
    let mut schemas = List::new(alloc);
    for schema in items_at(given, name)? {
        schemas.push(part(alloc, before, schema)?)?;
    }
    Ok(schemas)
}

fn properties(
    alloc: Global,
    before: &Option<Schema>,
    given: &Value,
) -> anyhow::Result<List<(Text, Schema)>> {
    let mut properties = List::new(alloc);
    if let Some(Value::Object(members)) = given.get("properties") {
        for (name, schema) in members.iter() {
            let name = Text::new(alloc, name.as_str())?;
            properties.push((name, part(alloc, before, schema)?))?;
        }
    }
    Ok(properties)
}

fn names(alloc: Global, given: &Value) -> anyhow::Result<List<Text>> {
    let mut names = List::new(alloc);
    for name in items_at(given, "required")? {
        names.push(Text::new(alloc, text_of(name)?)?)?;
    }
    Ok(names)
}

fn additional(
    alloc: Global,
    before: &Option<Schema>,
    given: &Value,
) -> anyhow::Result<Additional<RefLeaf>> {
    match given.get("additionalProperties") {
        None => Ok(Additional::Absent),
        Some(Value::Bool(truth)) => Ok(Additional::Truth(*truth)),
        Some(schema) => Ok(Additional::Of(part(alloc, before, schema)?)),
    }
}

fn property_names(
    alloc: Global,
    before: &Option<Schema>,
    given: &Value,
) -> anyhow::Result<Option<Schema>> {
    match given.get("propertyNames") {
        None => Ok(None),
        Some(schema) => Ok(Some(part(alloc, before, schema)?)),
    }
}

/// An object that says nothing.
fn plain(alloc: Global) -> Object<RefLeaf> {
    Object::new(alloc, TypeWord::Any, Annotations::new())
}

/// Sets what an object says of itself.
fn set_values(alloc: Global, object: &mut Object<RefLeaf>, given: &Value) -> anyhow::Result<()> {
    object.ty = type_word(given)?;
    object.bounds.minimum = bound(given, "minimum");
    object.format = text(alloc, given, "format")?;
    object.enum_values = jsons(alloc, given, "enum")?;
    object.annotations = annotations(alloc, given)?;
    Ok(())
}

/// Sets what an object says of its members.
fn set_members(
    alloc: Global,
    object: &mut Object<RefLeaf>,
    before: &Option<Schema>,
    given: &Value,
) -> anyhow::Result<()> {
    object.properties = properties(alloc, before, given)?;
    object.required = names(alloc, given)?;
    object.additional = additional(alloc, before, given)?;
    object.property_names = property_names(alloc, before, given)?;
    Ok(())
}

fn object(alloc: Global, before: &Option<Schema>, given: &Value) -> anyhow::Result<Schema> {
    let mut object = plain(alloc);
    set_values(alloc, &mut object, given)?;
    set_members(alloc, &mut object, before, given)?;
    Ok(Tree::Object(Box::new(alloc, object)?))
}

fn items(
    alloc: Global,
    before: &Option<Schema>,
    given: &Value,
) -> anyhow::Result<ArrayItems<RefLeaf>> {
    match given.get("items").context("items of an array")? {
        Value::Bool(false) => Ok(ArrayItems::False),
        schema => Ok(ArrayItems::Each(part(alloc, before, schema)?)),
    }
}

fn array(alloc: Global, before: &Option<Schema>, given: &Value) -> anyhow::Result<Schema> {
    let nullable = matches!(type_word(given)?, TypeWord::Nullable(_));
    let annotations = annotations(alloc, given)?;
    let prefix_items = parts(alloc, before, given, "prefixItems")?;
    let array = Array {
        nullable,
        items: items(alloc, before, given)?,
        prefix_items,
        unique: is_said(given, "uniqueItems"),
        max_items: bound(given, "maxItems"),
        min_items: bound(given, "minItems"),
        annotations,
    };
    Ok(Tree::Array(Box::new(alloc, array)?))
}

fn one_of(alloc: Global, before: &Option<Schema>, given: &Value) -> anyhow::Result<Schema> {
    let items = parts(alloc, before, given, "oneOf")?;
    let annotations = annotations(alloc, given)?;
    Ok(Tree::OneOf(Box::new(alloc, OneOfSchema { items, annotations })?))
}

fn all_of(alloc: Global, before: &Option<Schema>, given: &Value) -> anyhow::Result<Schema> {
    let items = parts(alloc, before, given, "allOf")?;
    let annotations = annotations(alloc, given)?;
    Ok(Tree::AllOf(Box::new(alloc, AllOfSchema { items, annotations })?))
}

fn reference(alloc: Global, given: &Value) -> anyhow::Result<Schema> {
    let name = Text::new(alloc, text_at(given, "name")?)?;
    let annotations = annotations(alloc, given)?;
    Ok(Tree::Leaf(RefLeaf { name, annotations }))
}

/// One schema, where `@` stands for the one before.
fn one(alloc: Global, before: &Option<Schema>, given: &Value) -> anyhow::Result<Schema> {
    match given.get("is").and_then(Value::as_str) {
        None => part(alloc, before, given),
        Some("object") => object(alloc, before, given),
        Some("array") => array(alloc, before, given),
        Some("oneOf") => one_of(alloc, before, given),
        Some("allOf") => all_of(alloc, before, given),
        Some("reference") => reference(alloc, given),
        Some(other) => bail!("no schema is {other}"),
    }
}

/// The schema that a row writes.
pub(crate) fn schema(alloc: Global, given: &Value) -> anyhow::Result<Schema> {
    let Value::Array(written) = given else {
        return one(alloc, &None, given);
    };
    let mut schema = None;
    for given in written {
        schema = Some(one(alloc, &schema, given)?);
    }
    schema.context("a schema")
}
