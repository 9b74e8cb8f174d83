//! The schemas of places, by what rows say of them.

use crate::place_annotations::comments;
use crate::term_rows::{named, term_text};
use component::{SchemaReference, copy_term};
use diag::DeriveError;
use place_schemas::{ComponentSchema, ComponentSchemaProps, ToTerm};
use rows::given::is_said;
use scopes::{ComponentDescription, Container};
use serde_json::Value;
use std::alloc::{AllocError, Global};
use syntax::parse_type;
use type_tree::TypeTree;

/// What is asked of a place.
#[derive(Clone, Copy)]
pub(crate) enum OfPlace {
    /// The JSON of its schema.
    Schema,
    /// The JSON of a copy of its term.
    CopiedTerm,
    /// The declarations that its schema names.
    References,
}

/// The declarations, with `!` where one is not to be followed.
fn references_text(alloc: Global, references: &[SchemaReference]) -> Result<String, AllocError> {
    let mut text = String::new(alloc);
    for reference in references {
        if !text.is_empty() {
            text.push_str(", ")?;
        }
        text.push_str(named(alloc, &reference.of, reference.is_inline)?.as_str())?;
        if reference.no_recursion {
            text.push('!')?;
        }
    }
    Ok(text)
}

fn made_text(
    alloc: Global,
    question: OfPlace,
    made: &ComponentSchema,
) -> Result<String, DeriveError> {
    let text = match question {
        OfPlace::Schema => term_text(alloc, made.to_term(alloc)?),
        OfPlace::CopiedTerm => term_text(alloc, copy_term(alloc, &made.term)?),
        OfPlace::References => references_text(alloc, made.schema_references.as_slice()),
    };
    Ok(text?)
}

/// The answer for the place, which is that of a parameter where the row says whether an option is nullable.
fn answer(
    alloc: Global,
    question: OfPlace,
    props: ComponentSchemaProps<'_, '_>,
    given: &Value,
) -> Result<String, DeriveError> {
    let made = match given.get("option_is_nullable").and_then(Value::as_bool) {
        Some(is_nullable) => ComponentSchema::for_params(alloc, props, is_nullable),
        None => ComponentSchema::new(alloc, props),
    };
    made_text(alloc, question, &made?)
}

/// The answer for a place of the row's type in the container, of which the row says more.
pub(crate) fn of_place(
    alloc: Global,
    question: OfPlace,
    container: &Container<'_>,
    given: &Value,
) -> Result<String, DeriveError> {
    let written = given.get("type").and_then(Value::as_str).unwrap_or("");
    let written = parse_type(alloc, written)?;
    let tree = TypeTree::from_type(alloc, &written)?;
    let comments = comments(alloc, given)?;
    let comments = ComponentDescription::CommentAttributes(&comments);
    let description = Some(&comments);
    let props = ComponentSchemaProps {
        container: &*container,
        type_tree: &tree,
        written: &written,
        nullable: is_said(given, "nullable"),
        inline: is_said(given, "inline"),
        deprecated: is_said(given, "deprecated"),
        description,
    };
    answer(alloc, question, props, given)
}
