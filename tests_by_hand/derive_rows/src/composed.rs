//! From sources to the documents of their components.

use crate::refusals::{refused, with_notes};
use crate::texts::source_of;
use crate::whole::json_of;
use acceptance_checker::component_accepts;
use anyhow::bail;
use compose::{Derived, derive_components};
use configuration::Config;
use configuration_json::FromJson;
use diag::DeriveError;
use open_types::OpenType;
use rows::given::{items_at, text_at};
use serde_json::Value;
use std::alloc::Global;

/// How often references are followed, one behind the other.
const DEPTH: usize = 9;

/// What the call of the crate `compose` answers.
pub(crate) fn told(alloc: Global, call: &str, given: &Value) -> anyhow::Result<String> {
    match call {
        "refusal" => refusal(alloc, given),
        "report" => report(alloc, given),
        "components" => components(alloc, given),
        "accepted" => accepted(alloc, given),
        "types" => types(alloc, given),
        other => bail!("no call {other}"),
    }
}

/// What is derived of the source. Its callers need nothing of what the derivation ensures.
fn derive(alloc: Global, source: &str, config: &Config) -> Result<Derived, DeriveError> {
    derive_components(alloc, source, config)
}

/// The refusal of the source, or that there is none.
fn refusal(alloc: Global, given: &Value) -> anyhow::Result<String> {
    let source = source_of(alloc, given)?;
    match derive(alloc, source.as_str(), &Config::new(alloc)) {
        Ok(_derived) => Ok(String::from_str(alloc, "no refusal")?),
        Err(error) => Ok(refused(alloc, &error)?),
    }
}

/// The row's configuration, or the empty one.
fn config_of(alloc: Global, given: &Value) -> Result<Config, DeriveError> {
    match given.get("configuration") {
        Some(value) => Config::from_value(alloc, value),
        None => Ok(Config::new(alloc)),
    }
}

/// The refusal of the source with its notes, or that there is none.
fn report(alloc: Global, given: &Value) -> anyhow::Result<String> {
    let config = config_of(alloc, given)?;
    match derive(alloc, text_at(given, "source")?, &config) {
        Ok(_derived) => Ok(String::from_str(alloc, "no refusal")?),
        Err(error) => Ok(with_notes(alloc, &error)?),
    }
}

/// The document of the source, or why it is refused.
fn components(alloc: Global, given: &Value) -> anyhow::Result<String> {
    let config = config_of(alloc, given)?;
    match derive(alloc, text_at(given, "source")?, &config) {
        Ok(derived) => Ok(derived.components.to_value(alloc)?.to_string(alloc)?),
        Err(error) => Ok(refused(alloc, &error)?),
    }
}

/// Those of the values that the source's component of the name accepts, as a JSON list.
fn accepted(alloc: Global, given: &Value) -> anyhow::Result<String> {
    let (source, name) = (text_at(given, "source")?, text_at(given, "name")?);
    let derived = derive(alloc, source, &config_of(alloc, given)?)?;
    let document = json_of(&derived.components.to_value(alloc)?)?;
    let mut accepted = Vec::new(alloc);
    for value in items_at(given, "values")? {
        if component_accepts(&document, name, &json_of(value)?, DEPTH) {
            accepted.push(value.clone()?)?;
        }
    }
    Ok(Value::Array(accepted).to_string(alloc)?)
}

/// The places of the declarations that are the types of the source's components, in their order.
fn types(alloc: Global, given: &Value) -> anyhow::Result<String> {
    let source = source_of(alloc, given)?;
    let derived = derive(alloc, source.as_str(), &Config::new(alloc))?;
    let mut places = Vec::new(alloc);
    for ty in derived.types.as_slice() {
        match ty.as_open() {
            OpenType::Named(place, _) => places.push(Value::from(*place))?,
            _ => bail!("no declaration"),
        }
    }
    Ok(Value::Array(places).to_string(alloc)?)
}
