//! Which values a schema accepts.

use crate::whole::json_of;
use acceptance_checker::accepts;
use rows::given::{count_at, list_at, member, text_at};
use schema_core::Json;
use serde_json::Value;
use std::alloc::Global;

/// Who judges a value.
#[derive(Drop)]
enum Judge<'a> {
    /// A schema of the document.
    Schema(&'a Json, &'a Json),
    /// The document's component of the name.
    Component(&'a Json, &'a str),
}

impl Judge<'_> {
    fn accepts(&self, value: &Json, depth: usize) -> bool {
        match self {
            Judge::Schema(document, schema) => accepts(document, schema, value, depth),
            Judge::Component(document, name) => {
                acceptance_checker::component_accepts(document, name, value, depth)
            },
        }
    }
}

/// Those of the row's values that are accepted, where references are followed to the row's depth, or not at all.
fn accepted(alloc: Global, judge: &Judge<'_>, given: &Value) -> anyhow::Result<String> {
    let depth = count_at(given, "depth").unwrap_or(0);
    let mut accepted = Vec::new(alloc);
    for value in list_at(given, "values")? {
        if judge.accepts(&json_of(value)?, depth) {
            accepted.push(value.clone()?)?;
        }
    }
    Ok(Value::Array(accepted).to_string(alloc)?)
}

/// Those of the values that the schema accepts, in the document or in none.
pub(crate) fn schema_accepts(alloc: Global, given: &Value) -> anyhow::Result<String> {
    let document = json_of(given.get("document").unwrap_or(&Value::Null))?;
    let schema = json_of(member(given, "schema")?)?;
    accepted(alloc, &Judge::Schema(&document, &schema), given)
}

/// Those of the values that the component of the row's name accepts in its document.
pub(crate) fn component_accepts(alloc: Global, given: &Value) -> anyhow::Result<String> {
    named_accepts(alloc, member(given, "document")?, given)
}

/// Those of the values that the document's component of the row's name accepts.
pub(crate) fn named_accepts(
    alloc: Global,
    document: &Value,
    given: &Value,
) -> anyhow::Result<String> {
    let name = text_at(given, "name")?;
    accepted(alloc, &Judge::Component(&json_of(document)?, name), given)
}
