//! Which values a schema accepts.

use crate::whole::json_of;
use acceptance_checker::{accepts, component_accepts};
use rows::given::{count_at, list_at, member};
use serde_json::Value;
use std::alloc::Global;

/// Of each of the row's values whether it is accepted, where references are followed to the row's depth: by the component of
/// the row's name in its document, or where it has no name by its schema.
pub(crate) fn accepted(alloc: Global, given: &Value) -> anyhow::Result<String> {
    let (written, depth) = (member(given, "document")?, count_at(given, "depth")?);
    let name = given.get("name").and_then(Value::as_str);
    let schema = json_of(given.get("schema").unwrap_or(written))?;
    let document = json_of(written)?;
    let mut text = String::new(alloc);
    for value in list_at(given, "values")? {
        let value = json_of(value)?;
        let holds = match name {
            Some(name) => component_accepts(&document, name, &value, depth),
            None => accepts(&document, &schema, &value, depth),
        };
        text.push_str(if holds { "y" } else { "n" })?;
    }
    Ok(text)
}
