//! Formats.

use anyhow::{Context, bail, ensure};
use lexing::lex;
use rows::given::text_of;
use rows::refusal_text;
use serde_json::Value;
use std::alloc::{AllocError, Global};
use syntax::parse_type;
use tokens::TokenTree;
use type_tree::{KnownFormat, TypeTree};
use words::ident_of;

/// The name of the format, or its own text.
fn format_text(alloc: Global, format: &KnownFormat) -> Result<String, AllocError> {
    match format {
        KnownFormat::Custom(text) => format!(in alloc; "the text \"{}\"", text.as_str()),
        named => format!(in alloc; "{named:?}"),
    }
}

/// The copy of the format, which is equal.
fn copy_text(alloc: Global, format: &KnownFormat) -> anyhow::Result<String> {
    let copy = format.copy(alloc)?;
    ensure!(copy == *format, "the copy is not equal");
    Ok(format_text(alloc, &copy)?)
}

/// The format of the last name of a type's path, and whether it is known.
pub(crate) fn of_path(alloc: Global, given: &Value) -> anyhow::Result<String> {
    let written = parse_type(alloc, text_of(given)?)?;
    let path = TypeTree::from_type(alloc, &written)?
        .path
        .context("a path")?;
    let format = KnownFormat::from_path(&path);
    let known = if format.is_known_format() {
        "known"
    } else {
        "unknown"
    };
    Ok(format!(in alloc; "{}, {known}", copy_text(alloc, &format)?)?)
}

/// The format that stands behind a name and `=`, or its refusal.
pub(crate) fn parsed(alloc: Global, given: &Value) -> anyhow::Result<String> {
    let trees = lex(alloc, text_of(given)?)?;
    let [TokenTree::Token(attribute), TokenTree::Token(_), value @ ..] = trees.as_slice() else {
        bail!("a name, `=` and a value");
    };
    match KnownFormat::parse(alloc, value, &ident_of(alloc, attribute)?) {
        Ok(format) => copy_text(alloc, &format),
        Err(error) => Ok(refusal_text(alloc, &error)?),
    }
}
