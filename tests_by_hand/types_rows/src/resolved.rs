//! What written types stand for in a source.

ghost use Rattle.std.specs.Prelude.{◌≡◌, ◌<◌, IfOk, length};
ghost use Rattle.open_types.specs.Open.{open_view, IsClosed};
ghost use Rattle.syntax.specs.Items.{declarations_view};

use anyhow::ensure;
use configuration::Config;
use diag::DeriveError;
use open_types::{ClosedType, OpenType, closed_types_stay, substitute};
use resolving::{KnownNames, resolution_is_exact, resolve_type};
use rows::given::{count_of, pair_of, text_of};
use rows::refusal_text;
use scopes::{Places, Scope, declared_places, resolve};
use serde_json::Value;
use std::alloc::{AllocError, Global};
use std::collections::BTreeMap;
use syntax::{Declarations, parse_declarations, parse_type};
use written_types::WrittenType;

/// What the type stands for where it is written in the first declaration.
pub(crate) fn resolve_in(
    alloc: Global,
    declarations: &Declarations,
    ty: &WrittenType,
) -> Result<OpenType, DeriveError>
    requires { 0 < length (declarations_view declarations.now) }
{
    let by_name = declared_places(alloc, declarations)?;
    let places = Places::of_names(alloc, declarations, by_name)?;
    let scope = Scope::new(alloc, &places, 0)?;
    resolve(alloc, &scope, ty, &Config::new(alloc))
}

/// The type, which has no parameters.
pub(crate) fn closed(alloc: Global, ty: &OpenType) -> Result<ClosedType, AllocError>
    requires { IsClosed (open_view ty.now) }
    ensures { IfOk result (λ t. open_view t ≡ open_view ty.now) }
{
    closed_types_stay();
    substitute(alloc, ty, &[])
}

/// What the text stands for as a type in the first declaration of the source.
pub(crate) fn read_in(alloc: Global, source: &str, written: &str) -> anyhow::Result<OpenType> {
    let declarations = parse_declarations(alloc, source)?;
    ensure!(!declarations.items.is_empty(), "no declaration");
    let ty = parse_type(alloc, written)?;
    Ok(resolve_in(alloc, &declarations, &ty)?)
}

/// The type in full, or its refusal.
fn told(alloc: Global, found: Result<OpenType, DeriveError>) -> Result<String, AllocError> {
    match found {
        Ok(ty) => format!(in alloc; "{ty:?}"),
        Err(error) => refusal_text(alloc, &error),
    }
}

/// What a type stands for by the places of the declarations of a source.
pub(crate) fn by_places(alloc: Global, given: &Value) -> anyhow::Result<String> {
    let (source, written) = pair_of(given)?;
    let declarations = parse_declarations(alloc, text_of(source)?)?;
    let by_name = declared_places(alloc, &declarations)?;
    let places = Places::of_names(alloc, &declarations, by_name)?;
    let none = BTreeMap::new(alloc);
    let names = KnownNames {
        aliases: &none,
        alias_types: &[],
        places: &places.by_name,
        counts: places.counts.as_slice(),
        own: None,
        count: 0,
        parameters: &none,
        constants: &none,
    };
    let ty = parse_type(alloc, text_of(written)?)?;
    resolution_is_exact();
    Ok(told(alloc, resolve_type(alloc, &names, &ty))?)
}

/// What a type stands for in the first declaration of a source.
pub(crate) fn in_scope(alloc: Global, given: &Value) -> anyhow::Result<String> {
    let (source, written) = pair_of(given)?;
    let declarations = parse_declarations(alloc, text_of(source)?)?;
    ensure!(!declarations.items.is_empty(), "no declaration");
    let ty = parse_type(alloc, text_of(written)?)?;
    Ok(told(alloc, resolve_in(alloc, &declarations, &ty))?)
}

/// How many types the tuple holds, any other type in full.
fn tuple_text(alloc: Global, ty: &OpenType) -> Result<String, AllocError> {
    match ty {
        OpenType::Unit => String::from_str(alloc, "the unit"),
        OpenType::Tuple(items) => format!(in alloc; "a tuple of {}", items.len()),
        other => format!(in alloc; "{other:?}"),
    }
}

/// What the type stands for in a source without declarations, or its refusal.
fn undeclared(alloc: Global, ty: &WrittenType) -> Result<String, AllocError> {
    let none = BTreeMap::new(alloc);
    let names = KnownNames {
        aliases: &none,
        alias_types: &[],
        places: &none,
        counts: &[],
        own: None,
        count: 0,
        parameters: &none,
        constants: &none,
    };
    match resolve_type(alloc, &names, ty) {
        Ok(ty) => tuple_text(alloc, &ty),
        Err(error) => refusal_text(alloc, &error),
    }
}

/// The tuple, behind a reference, that holds the type so many times.
fn written_tuple(alloc: Global, item: &str, count: usize) -> Result<String, AllocError> {
    let mut written = String::from_str(alloc, "&(")?;
    for _ in 0..count {
        written.push_str(item)?;
        written.push_str(",")?;
    }
    written.push_str(")")?;
    Ok(written)
}

/// How many types the tuple holds that stands behind a reference and holds a type so many times.
pub(crate) fn tuple(alloc: Global, given: &Value) -> anyhow::Result<String> {
    let (item, count) = pair_of(given)?;
    let written = written_tuple(alloc, text_of(item)?, count_of(count)?)?;
    let ty = parse_type(alloc, written.as_str())?;
    Ok(undeclared(alloc, &ty)?)
}
