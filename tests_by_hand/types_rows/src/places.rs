//! Places of declared names.

use crate::parts::push_after;
use diag::DeriveError;
use rows::given::text_of;
use rows::refusal_text;
use scopes::{declared_places, places_of};
use serde_json::Value;
use std::alloc::{AllocError, Global};
use std::collections::BTreeMap;
use syntax::parse_declarations;

/// Each name and its place, by name.
fn places_text(alloc: Global, places: &BTreeMap<String, usize>) -> Result<String, AllocError> {
    let mut text = String::new(alloc);
    for (name, place) in places.iter() {
        let part = format!(in alloc; "{} at {place}", name.as_str())?;
        push_after(&mut text, ", ", part.as_str())?;
    }
    Ok(text)
}

/// The places, or the refusal.
fn told(
    alloc: Global,
    found: Result<BTreeMap<String, usize>, DeriveError>,
) -> Result<String, AllocError> {
    match found {
        Ok(places) => places_text(alloc, &places),
        Err(error) => refusal_text(alloc, &error),
    }
}

/// The places of the names that a source declares.
pub(crate) fn declared(alloc: Global, given: &Value) -> anyhow::Result<String> {
    let declarations = parse_declarations(alloc, text_of(given)?)?;
    Ok(told(alloc, declared_places(alloc, &declarations))?)
}

/// The places of the names of a source's items.
pub(crate) fn of_items(alloc: Global, given: &Value) -> anyhow::Result<String> {
    let declarations = parse_declarations(alloc, text_of(given)?)?;
    Ok(told(alloc, places_of(alloc, declarations.items.as_slice()))?)
}
