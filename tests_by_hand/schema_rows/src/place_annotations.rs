//! What is said of a place beside its type.

use crate::forms::form_text;
use crate::annotations::text;
use crate::term_rows::term_text;
use component::{Place, annotated, null_default, place_term};
use open_types::OpenType;
use rows::given::{count_at, is_said, items_at};
use schema_core::{Annotations, RefLeaf, Tree};
use scopes::ComponentDescription;
use serde_json::Value;
use std::alloc::{AllocError, Global};
use syntax::CommentAttributes;
use texts::{List, Text};

/// The doc comments of the row, line by line.
pub(crate) fn comments(alloc: Global, given: &Value) -> Result<CommentAttributes, AllocError> {
    let mut lines = List::new(alloc);
    for line in items_at(given, "comments").unwrap_or(&[]) {
        if let Some(line) = line.as_str() {
            lines.push(Text::new(alloc, line)?)?;
        }
    }
    Ok(CommentAttributes(lines))
}

/// The description that the row's doc comments give, or `none`.
pub(crate) fn description(alloc: Global, given: &Value) -> Result<String, AllocError> {
    let comments = comments(alloc, given)?;
    let said = ComponentDescription::CommentAttributes(&comments).text(alloc)?;
    let told = match &said {
        Some(text) => text.as_str(),
        None => "none",
    };
    String::from_str(alloc, told)
}

/// Annotations of what the row says.
fn annotations_of(alloc: Global, given: &Value) -> Result<Annotations, AllocError> {
    let description = text(alloc, given, "description")?;
    annotated(alloc, is_said(given, "deprecated"), &description)
}

/// The JSON of a reference with the row's annotations.
pub(crate) fn annotated_form(alloc: Global, given: &Value) -> Result<String, AllocError> {
    let annotations = annotations_of(alloc, given)?;
    let name = Text::new(alloc, "A")?;
    form_text(alloc, Tree::Leaf(RefLeaf { name, annotations }))
}

/// The JSON of null as a default.
pub(crate) fn null_form(alloc: Global, given: &Value) -> Result<String, AllocError> {
    let description = text(alloc, given, "description")?;
    term_text(alloc, null_default(alloc, &description)?)
}

/// The JSON of the schema at the place of an argument for the row's parameter, which is the first where it has none.
pub(crate) fn argument_form(alloc: Global, given: &Value) -> Result<String, AllocError> {
    let place = Place {
        nullable: is_said(given, "nullable"),
        inline: is_said(given, "inline"),
        deprecated: is_said(given, "deprecated"),
        description: &text(alloc, given, "description")?,
    };
    let parameter = OpenType::Param(count_at(given, "parameter").unwrap_or(0));
    term_text(alloc, place_term(alloc, place, &parameter)?)
}
