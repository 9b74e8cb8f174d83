//! Values without floats, and whole numbers of 64 bits.

use anyhow::Context;
use schema_core::{Bound, Json};
use serde_json::{Map, Value};
use std::alloc::{AllocError, Global};

/// The value under the word.
fn under(alloc: Global, word: &str, value: Value) -> Result<String, AllocError> {
    let mut told = Map::new(alloc);
    told.insert(String::from_str(alloc, word)?, value)?;
    Value::Object(told).to_string(alloc)
}

/// A copy of the value that is kept, or the value that is given back.
pub(crate) fn json(alloc: Global, given: &Value) -> Result<String, AllocError> {
    match Json::new(given.clone()?) {
        Ok(json) => under(alloc, "kept", json.copy(alloc)?.value().clone()?),
        Err(back) => under(alloc, "given back", back),
    }
}

/// The bound of a number in decimal, or `none`.
pub(crate) fn bound(alloc: Global, given: &Value) -> anyhow::Result<String> {
    let number = given.as_str().context("a number's text")?.parse::<i128>()?;
    match Bound::new(number) {
        Some(bound) => Ok(bound.value().to_string(alloc)?),
        None => Ok(String::from_str(alloc, "none")?),
    }
}

/// The bound that there is always.
pub(crate) fn zero(alloc: Global) -> Result<String, AllocError> {
    Bound::zero().value().to_string(alloc)
}
