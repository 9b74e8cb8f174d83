//! Sources, and what is asked of them.

use crate::declared::{OfDeclaration, of_declaration};
use crate::places::{OfPlace, of_place};
use crate::resolved::declarations_text;
use configuration::Config;
use derive_decl::{Root, resolved_declarations};
use diag::DeriveError;
use rows::refusal_text;
use scopes::{Container, Places, Scope, declared_places};
use serde_json::Value;
use std::alloc::Global;
use syntax::parse_declarations;

/// The source of a row that gives none.
const SOURCE: &str = "struct A { x: u8 } struct B { y: u8 }";

/// What is asked of the first declaration of a source.
#[derive(Clone, Copy)]
pub(crate) enum OfFirst {
    /// Something of itself.
    Declaration(OfDeclaration),
    /// Something of a place in it.
    Place(OfPlace),
}

/// The answer for the first of the declarations, or `no declaration`.
fn first(
    alloc: Global,
    question: OfFirst,
    places: &Places<'_>,
    given: &Value,
) -> Result<String, DeriveError> {
    let [first, ..] = places.declarations.items.as_slice() else {
        return Ok(String::from_str(alloc, "no declaration")?);
    };
    let scope = Scope::new(alloc, &*places, 0)?;
    let config = Config::new(alloc);
    let container = Container {
        scope: &scope,
        config: &config,
    };
    let root = Root {
        ident: &first.ident,
        attributes: first.attrs.as_slice(),
        container: &container,
    };
    match question {
        OfFirst::Declaration(question) => of_declaration(alloc, question, &root, &first.body),
        OfFirst::Place(question) => of_place(alloc, question, &container, given),
    }
}

/// What all declarations are resolved to.
fn all_resolved(alloc: Global, places: &Places<'_>) -> Result<String, DeriveError> {
    let config = Config::new(alloc);
    let all = resolved_declarations(alloc, places, &config)?;
    Ok(declarations_text(alloc, all.as_slice())?)
}

/// The answer for the first declaration of the source that the row gives, or for all where none is asked for, or the refusal.
pub(crate) fn of_source(
    alloc: Global,
    question: Option<OfFirst>,
    given: &Value,
) -> anyhow::Result<String> {
    let declarations = parse_declarations(alloc, given.as_str().unwrap_or(SOURCE))?;
    let by_name = declared_places(alloc, &declarations)?;
    let places = Places::of_names(alloc, &declarations, by_name)?;
    let told = match question {
        Some(question) => first(alloc, question, &places, given),
        None => all_resolved(alloc, &places),
    };
    match told {
        Ok(text) => Ok(text),
        Err(error) => Ok(refusal_text(alloc, &error)?),
    }
}
