//! How resolved types read.

use crate::resolved::{closed, resolve_in};
use anyhow::ensure;
use rows::given::{pair_of, text_of};
use scopes::type_text;
use serde_json::Value;
use std::alloc::Global;
use syntax::{parse_declarations, parse_type};

/// How a type reads that is written in the first declaration of a source.
pub(crate) fn of_type(alloc: Global, given: &Value) -> anyhow::Result<String> {
    let (source, written) = pair_of(given)?;
    let declarations = parse_declarations(alloc, text_of(source)?)?;
    ensure!(!declarations.items.is_empty(), "no declaration");
    let ty = parse_type(alloc, text_of(written)?)?;
    let closed = closed(alloc, &resolve_in(alloc, &declarations, &ty)?)?;
    let text = type_text(alloc, &declarations, &closed)?;
    Ok(String::from_str(alloc, text.as_str())?)
}
