//! Written types, and their copies.

use crate::answers::{equality, word_or_refusal};
use diag::DeriveError;
use rows::given::text_of;
use serde_json::Value;
use std::alloc::{AllocError, Global};
use syntax::parse_type;
use written_types::{Path, WrittenType};

/// Whether the type is a path.
fn form(ty: &WrittenType) -> &'static str {
    if let WrittenType::Path(_) = ty {
        "path"
    } else {
        "no path"
    }
}

/// Whether the type of the text is a path.
fn form_of(alloc: Global, source: &str) -> Result<&'static str, DeriveError> {
    let ty = parse_type(alloc, source)?;
    Ok(form(&ty))
}

/// Whether the type of the text is a path, or why there is no type.
pub(crate) fn parsed(alloc: Global, given: &Value) -> anyhow::Result<String> {
    let made = form_of(alloc, text_of(given)?);
    Ok(word_or_refusal(alloc, &made)?)
}

/// Whether a copy of the path is equal.
fn has_equal_copy(alloc: Global, path: &Path) -> Result<bool, AllocError> {
    Ok(path.copy(alloc)? == *path)
}

/// Whether a copy of the type is equal.
fn is_equal_copy(alloc: Global, ty: &WrittenType) -> Result<bool, AllocError> {
    Ok(ty.copy(alloc)? == *ty)
}

/// Whether a copy of the type is equal, and one of its path where it is one.
fn are_equal(alloc: Global, ty: &WrittenType) -> Result<bool, DeriveError> {
    if let WrittenType::Path(path) = ty {
        if !has_equal_copy(alloc, path)? {
            return Ok(false);
        }
    }
    Ok(is_equal_copy(alloc, ty)?)
}

/// Whether copies of the type of the text are equal.
fn has_equal_copies(alloc: Global, source: &str) -> Result<bool, DeriveError> {
    let ty = parse_type(alloc, source)?;
    are_equal(alloc, &ty)
}

/// Whether copies of the type of the text are equal.
pub(crate) fn copied(alloc: Global, given: &Value) -> anyhow::Result<String> {
    let is_equal = has_equal_copies(alloc, text_of(given)?)?;
    Ok(String::from_str(alloc, equality(is_equal))?)
}
