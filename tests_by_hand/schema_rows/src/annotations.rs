//! Annotations as rows write them, under the names that they have in JSON.

use anyhow::bail;
use schema_core::{AnnotationKeywords, Annotations, Json};
use serde_json::Value;
use std::alloc::{AllocError, Global};
use texts::{List, Text};

pub(crate) fn text(alloc: Global, given: &Value, name: &str) -> Result<Option<Text>, AllocError> {
    match given.get(name).and_then(Value::as_str) {
        Some(text) => Ok(Some(Text::new(alloc, text)?)),
        None => Ok(None),
    }
}

/// The value, which has no float.
fn whole(value: &Value) -> anyhow::Result<Json> {
    match Json::new(value.clone()?) {
        Ok(json) => Ok(json),
        Err(float) => bail!("{float} has a float"),
    }
}

fn json(given: &Value, name: &str) -> anyhow::Result<Option<Json>> {
    match given.get(name) {
        Some(value) => Ok(Some(whole(value)?)),
        None => Ok(None),
    }
}

/// The values of the list at the name.
pub(crate) fn jsons(
    alloc: Global,
    given: &Value,
    name: &str,
) -> anyhow::Result<Option<List<Json>>> {
    let Some(values) = given.get(name).and_then(Value::as_array) else {
        return Ok(None);
    };
    let mut jsons = List::new(alloc);
    for value in values {
        jsons.push(whole(value)?)?;
    }
    Ok(Some(jsons))
}

fn truth(given: &Value, name: &str) -> Option<bool> {
    given.get(name).and_then(Value::as_bool)
}

/// Sets the annotations that are texts.
fn set_texts(
    alloc: Global,
    keywords: &mut AnnotationKeywords,
    given: &Value,
) -> Result<(), AllocError> {
    keywords.title = text(alloc, given, "title")?;
    keywords.description = text(alloc, given, "description")?;
    keywords.content_encoding = text(alloc, given, "contentEncoding")?;
    keywords.content_media_type = text(alloc, given, "contentMediaType")?;
    Ok(())
}

/// Sets the annotations that are values.
fn set_values(
    alloc: Global,
    keywords: &mut AnnotationKeywords,
    given: &Value,
) -> anyhow::Result<()> {
    keywords.default = json(given, "default")?;
    keywords.example = json(given, "example")?;
    keywords.examples = jsons(alloc, given, "examples")?;
    Ok(())
}

/// The annotations among the members of what a row gives.
pub(crate) fn annotations(alloc: Global, given: &Value) -> anyhow::Result<Annotations> {
    let mut keywords = AnnotationKeywords::none();
    keywords.deprecated = truth(given, "deprecated");
    keywords.read_only = truth(given, "readOnly");
    keywords.write_only = truth(given, "writeOnly");
    set_texts(alloc, &mut keywords, given)?;
    set_values(alloc, &mut keywords, given)?;
    Ok(Annotations::of(alloc, keywords)?)
}
