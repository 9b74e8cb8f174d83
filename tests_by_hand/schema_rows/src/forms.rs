//! The JSON of schemas.

use crate::filled::Objects;
use crate::written::schema;
use filling::{copied, copy_schema, filled};
use schema_core::{Components, Schema};
use serde_json::Value;
use std::alloc::{AllocError, Global};
use texts::Text;

/// What is asked of a schema.
#[derive(Clone, Copy)]
pub(crate) enum OfSchema {
    /// The JSON of a copy.
    Copy,
    /// The JSON of a copy, by the call that copies leaves of any type.
    Copied,
    /// The JSON with an object in the place of each reference, which has that reference under its name.
    Filled,
}

/// The JSON of the schema, as a document with no other has it.
pub(crate) fn form_text(alloc: Global, schema: Schema) -> Result<String, AllocError> {
    let mut components = Components::new(alloc);
    components.insert(Text::new(alloc, "C")?, schema)?;
    let document = components.to_value(alloc)?;
    match document.pointer("/components/schemas/C") {
        Some(form) => form.to_string(alloc),
        None => String::from_str(alloc, "not in the document"),
    }
}

/// The JSON of the schema.
pub(crate) fn form(alloc: Global, given: &Value) -> anyhow::Result<String> {
    Ok(form_text(alloc, schema(alloc, given)?)?)
}

fn answer(alloc: Global, question: OfSchema, schema: &Schema) -> Result<String, AllocError> {
    let made = match question {
        OfSchema::Copy => copy_schema(alloc, schema),
        OfSchema::Copied => copied(alloc, schema),
        OfSchema::Filled => filled(alloc, schema, &Objects),
    };
    form_text(alloc, made?)
}

/// The answer for the schema that the row writes.
pub(crate) fn of_schema(
    alloc: Global,
    question: OfSchema,
    given: &Value,
) -> anyhow::Result<String> {
    Ok(answer(alloc, question, &schema(alloc, given)?)?)
}
