//! What follows a literal, signs or a character at the front of a text.

use crate::answers::rest_of_text;
use crate::inputs::source;
use literals::{after_hashes, after_literal, split_first_char};
use rows::given::{count_of, pair_of};
use serde_json::Value;
use std::alloc::Global;

/// What follows the literal.
pub(crate) fn after_one(alloc: Global, given: &Value) -> anyhow::Result<String> {
    let text = source(alloc, given)?;
    Ok(rest_of_text(alloc, after_literal(text.as_str()))?)
}

/// What follows so many signs `#`.
pub(crate) fn after_some_hashes(alloc: Global, given: &Value) -> anyhow::Result<String> {
    let (hashes, given) = pair_of(given)?;
    let text = source(alloc, given)?;
    let rest = after_hashes(count_of(hashes)?, text.as_str());
    Ok(rest_of_text(alloc, rest)?)
}

/// The first character, and what follows it.
pub(crate) fn first_char(alloc: Global, given: &Value) -> anyhow::Result<String> {
    let text = source(alloc, given)?;
    match split_first_char(text.as_str()) {
        None => Ok(rest_of_text(alloc, None)?),
        Some((first, rest)) => {
            let rest = rest_of_text(alloc, Some(rest))?;
            Ok(format!(in alloc; "{first}, {}", rest.as_str())?)
        }
    }
}
