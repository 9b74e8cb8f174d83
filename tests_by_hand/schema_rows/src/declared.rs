//! The schemas of declarations.

use crate::resolved::declaration_text;
use crate::term_rows::term_text;
use declaration_schemas::{Schema, SchemaVariant};
use derive_decl::Root;
use diag::DeriveError;
use open_types::OpenType;
use place_schemas::ToTerm;
use std::alloc::{AllocError, Global};
use syntax::Body;
use terms::declaration_term;

/// What is asked of a declaration.
#[derive(Clone, Copy)]
pub(crate) enum OfDeclaration {
    /// The types of its places.
    PlaceTypes,
    /// What it is resolved to.
    Resolved,
    /// The JSON of the schema of what it is resolved to.
    ResolvedTerm,
    /// The JSON of the schema of its body.
    Body,
}

fn types_text(alloc: Global, types: &[OpenType]) -> Result<String, AllocError> {
    let mut text = String::new(alloc);
    for ty in types {
        if !text.is_empty() {
            text.push_str(", ")?;
        }
        text.push_str(format!(in alloc; "{ty:?}")?.as_str())?;
    }
    Ok(text)
}

/// The JSON of what has a term.
fn text_of<T: ToTerm>(alloc: Global, made: &T) -> Result<String, DeriveError>
    requires { T.is_ready made.now }
{
    Ok(term_text(alloc, made.to_term(alloc)?)?)
}

/// The answer for the declaration with this root and this body.
pub(crate) fn of_declaration(
    alloc: Global,
    question: OfDeclaration,
    root: &Root<'_>,
    body: &Body,
) -> Result<String, DeriveError> {
    let schema = Schema::new(body, root.attributes, root.ident, root.container);
    match question {
        OfDeclaration::PlaceTypes => {
            Ok(types_text(alloc, schema.place_types(alloc)?.as_slice())?)
        }
        OfDeclaration::Resolved => Ok(declaration_text(alloc, &schema.resolve(alloc)?)?),
        OfDeclaration::ResolvedTerm => {
            let term = declaration_term(alloc, &schema.resolve(alloc)?)?;
            Ok(term_text(alloc, term)?)
        }
        OfDeclaration::Body => text_of(alloc, &SchemaVariant::new(alloc, body, root)?),
    }
}
