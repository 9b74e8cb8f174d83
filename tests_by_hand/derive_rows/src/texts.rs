//! Bytes as texts.

use crate::parts::bytes_of;
use anyhow::Context;
use serde_json::Value;
use std::alloc::Global;

/// The text of a text, or of a list of parts.
pub(crate) fn source_of(alloc: Global, given: &Value) -> anyhow::Result<String> {
    Ok(String::from_utf8(bytes_of(alloc, given)?)?)
}

/// The bytes as a text.
pub(crate) fn shown(bytes: &[u8]) -> anyhow::Result<&str> {
    str::from_utf8(bytes).context("bytes in UTF-8")
}
