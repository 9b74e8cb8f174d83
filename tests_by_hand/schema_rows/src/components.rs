//! Components by name, and their document.

use crate::forms::form_text;
use crate::judged::named_accepts;
use crate::written::schema;
use anyhow::{Context, bail};
use filling::copy_schema;
use rows::given::text_at;
use schema_core::Components;
use serde_json::Value;
use std::alloc::{AllocError, Global};
use texts::Text;

/// What is asked of components.
#[derive(Clone, Copy)]
pub(crate) enum OfComponents {
    /// The names.
    Names,
    /// The document's value.
    Document,
    /// The document's text.
    DocumentText,
    /// The JSON of the schema under the row's name, or `none`.
    Found,
    /// Those of the row's values that the component of its name accepts in the document.
    Accepted,
}

/// Inserts a name and its schema; whether the name is new.
fn insert(alloc: Global, components: &mut Components, given: &Value) -> anyhow::Result<bool> {
    match given.as_array().context("a component")?.as_slice() {
        [Value::String(name), written] => {
            let schema = schema(alloc, written)?;
            let name = Text::new(alloc, name.as_str())?;
            Ok(components.insert(name, schema)?)
        }
        _ => bail!("a component is a list of its name and its schema"),
    }
}

/// Inserts the names and schemas in their order, and adds to the answers whether each name is new.
fn insert_all(
    alloc: Global,
    components: &mut Components,
    answers: &mut String,
    given: &Value,
) -> anyhow::Result<()> {
    for component in given.as_array().context("components")? {
        if !answers.is_empty() {
            answers.push_str(", ")?;
        }
        let is_new = insert(alloc, components, component)?;
        answers.push_str(if is_new { "new" } else { "known" })?;
    }
    Ok(())
}

fn names_text(alloc: Global, components: &Components) -> Result<String, AllocError> {
    let mut names = Vec::new(alloc);
    for name in components.names() {
        names.push(Value::try_from_str(alloc, name.as_str())?)?;
    }
    Value::Array(names).to_string(alloc)
}

fn found_text(alloc: Global, components: &Components, name: &str) -> Result<String, AllocError> {
    match components.get(name) {
        Some(schema) => form_text(alloc, copy_schema(alloc, schema)?),
        None => String::from_str(alloc, "none"),
    }
}

fn answer(
    alloc: Global,
    question: OfComponents,
    components: &Components,
    given: &Value,
) -> anyhow::Result<String> {
    match question {
        OfComponents::Names => Ok(names_text(alloc, components)?),
        OfComponents::Document => Ok(components.to_value(alloc)?.to_string(alloc)?),
        OfComponents::DocumentText => {
            let text = components.to_text(alloc)?;
            Ok(String::from_str(alloc, text.as_str())?)
        }
        OfComponents::Found => Ok(found_text(alloc, components, text_at(given, "name")?)?),
        OfComponents::Accepted => named_accepts(alloc, &components.to_value(alloc)?, given),
    }
}

/// The answer for the components that the row writes, a list of names and schemas. Where nothing is asked, it is whether
/// each name was new or known when it was inserted.
pub(crate) fn of_components(
    alloc: Global,
    question: Option<OfComponents>,
    given: &Value,
) -> anyhow::Result<String> {
    let mut components = Components::new(alloc);
    let mut answers = String::new(alloc);
    let written = given.get("components").unwrap_or(given);
    insert_all(alloc, &mut components, &mut answers, written)?;
    match question {
        Some(question) => answer(alloc, question, &components, given),
        None => Ok(answers),
    }
}
