//! Written types, and the names and paths in them.

use crate::answers::{bytes, copied, equality, stopped, then_left};
use crate::inputs::{source, source_trees};
use crate::readers::{first_ident, ident_text};
use rows::given::{count_of, pair_of};
use rows::refusal_text;
use serde_json::Value;
use std::alloc::{AllocError, Global};
use syntax::parse_type;
use type_grammar::{after_bounds, bound_at, read_type, type_at};
use written_types::{Path, PathSegment, WrittenType};

/// The word, and how many arguments it has.
fn segment_text(alloc: Global, segment: &PathSegment) -> Result<String, AllocError> {
    let word = segment.ident.text.as_str();
    match &segment.arguments {
        None => word.to_string(alloc),
        Some(arguments) => format!(in alloc; "{word}<{}>", arguments.len()),
    }
}

fn path_text(alloc: Global, path: &Path) -> Result<String, AllocError> {
    let segments: Vec<String> = path
        .segments
        .as_slice()
        .iter()
        .map(|segment| segment_text(alloc, segment))
        .try_collect(alloc)?;
    let start = if path.leading { "::" } else { "" };
    format!(in alloc; "{start}{}", segments.join(alloc, "::")?)
}

/// The form of the type, its path or how many items it has, and where it stands.
fn form_text(alloc: Global, ty: &WrittenType) -> Result<String, AllocError> {
    let (form, span) = match ty {
        WrittenType::Path(path) => (
            format!(in alloc; "path {}", path_text(alloc, path)?)?,
            path.span,
        ),
        WrittenType::Reference(_) => return "reference".to_string(alloc),
        WrittenType::Tuple(items, span) => (format!(in alloc; "tuple of {}", items.len())?, *span),
        WrittenType::Slice(_, span) => ("slice".to_string(alloc)?, *span),
        WrittenType::Array(_, span) => ("array".to_string(alloc)?, *span),
        WrittenType::TraitObject(path, span) => (
            format!(in alloc; "object {}", path_text(alloc, path)?)?,
            *span,
        ),
    };
    format!(in alloc; "{} {}..{}", form.as_str(), span.start, span.end)
}

/// The form of the type, and of the one type that a reference, a slice or an array is of.
fn type_text(alloc: Global, ty: &WrittenType) -> Result<String, AllocError> {
    let form = form_text(alloc, ty)?;
    match ty {
        WrittenType::Reference(of) | WrittenType::Slice(of, _) | WrittenType::Array(of, _) => {
            format!(in alloc; "{} of {}", form.as_str(), form_text(alloc, of)?)
        }
        _ => Ok(form),
    }
}

/// The type that all trees of the source are.
pub(crate) fn read(alloc: Global, given: &Value) -> anyhow::Result<String> {
    let trees = source_trees(alloc, given)?;
    match read_type(alloc, trees.as_slice()) {
        Ok(ty) => Ok(type_text(alloc, &ty)?),
        Err(stop) => Ok(stopped(alloc, stop)?),
    }
}

/// The type at the front of the source that nests so many levels, and how many trees are left.
pub(crate) fn type_in_front(alloc: Global, given: &Value) -> anyhow::Result<String> {
    let (given, levels) = pair_of(given)?;
    let trees = source_trees(alloc, given)?;
    match type_at(alloc, trees.as_slice(), count_of(levels)?) {
        Ok((ty, rest)) => {
            let text = type_text(alloc, &ty)?;
            Ok(then_left(alloc, text.as_str(), rest)?)
        }
        Err(stop) => Ok(stopped(alloc, stop)?),
    }
}

/// The bytes of the bound at the front of the source whose arguments nest so many levels, and how many trees are left.
pub(crate) fn bound_in_front(alloc: Global, given: &Value) -> anyhow::Result<String> {
    let (given, levels) = pair_of(given)?;
    let trees = source_trees(alloc, given)?;
    match bound_at(alloc, trees.as_slice(), count_of(levels)?) {
        Ok((span, rest)) => {
            let text = bytes(alloc, span)?;
            Ok(then_left(alloc, text.as_str(), rest)?)
        }
        Err(stop) => Ok(stopped(alloc, stop)?),
    }
}

/// How many trees are left behind the bounds at the front of the source whose arguments nest so many levels.
pub(crate) fn behind_bounds(alloc: Global, given: &Value) -> anyhow::Result<String> {
    let (given, levels) = pair_of(given)?;
    let trees = source_trees(alloc, given)?;
    match after_bounds(alloc, trees.as_slice(), count_of(levels)?) {
        Ok(rest) => Ok(then_left(alloc, "bounds", rest)?),
        Err(stop) => Ok(stopped(alloc, stop)?),
    }
}

/// The type that the whole text is.
pub(crate) fn parsed(alloc: Global, given: &Value) -> anyhow::Result<String> {
    let text = source(alloc, given)?;
    match parse_type(alloc, text.as_str()) {
        Ok(ty) => Ok(type_text(alloc, &ty)?),
        Err(error) => Ok(refusal_text(alloc, &error)?),
    }
}

/// The type of a text that is one.
fn given_type(alloc: Global, given: &Value) -> anyhow::Result<WrittenType> {
    let text = source(alloc, given)?;
    Ok(parse_type(alloc, text.as_str())?)
}

/// Whether two types are equal.
pub(crate) fn compared(alloc: Global, given: &Value) -> anyhow::Result<String> {
    let (one, other) = pair_of(given)?;
    let are_equal = given_type(alloc, one)? == given_type(alloc, other)?;
    Ok(equality(are_equal).to_string(alloc)?)
}

/// Whether two names are equal.
pub(crate) fn idents_compared(alloc: Global, given: &Value) -> anyhow::Result<String> {
    let (one, other) = pair_of(given)?;
    let are_equal = first_ident(alloc, one)? == first_ident(alloc, other)?;
    Ok(equality(are_equal).to_string(alloc)?)
}

/// The copy of a name.
pub(crate) fn ident_copied(alloc: Global, given: &Value) -> anyhow::Result<String> {
    let ident = first_ident(alloc, given)?;
    let copy = ident.copy(alloc)?;
    let text = ident_text(alloc, &copy)?;
    Ok(copied(alloc, text.as_str(), copy == ident)?)
}
