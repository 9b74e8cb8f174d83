//! Attributes and doc comments.

use crate::answers::{stopped, yes_or_no};
use crate::inputs::source_trees;
use anyhow::bail;
use attributes::{Attribute, CommentAttributes, Meta, SerdeItem, attributes_at, is_inner_doc};
use rows::given::{pair_of, text_of};
use serde_json::Value;
use std::alloc::{AllocError, Global};
use texts::List;

/// The first word of the path.
pub(crate) fn first_word(attribute: &Attribute) -> &str {
    match attribute.path.segments.as_slice() {
        [first, ..] => first.ident.text.as_str(),
        [] => "",
    }
}

/// The text of a doc comment in brackets, or the path's first word, and how many trees stand behind it.
fn meta_text(alloc: Global, attribute: &Attribute) -> Result<String, AllocError> {
    let word = first_word(attribute);
    match &attribute.meta {
        Meta::Word => word.to_string(alloc),
        Meta::NameValue(trees) => format!(in alloc; "{word}={}", trees.len()),
        Meta::Items(group) => format!(in alloc; "{word}({})", group.trees.len()),
        Meta::Doc(text) => format!(in alloc; "[{}]", text.as_str()),
    }
}

fn attribute_text(alloc: Global, attribute: &Attribute) -> Result<String, AllocError> {
    let (meta, span) = (meta_text(alloc, attribute)?, attribute.span);
    format!(in alloc; "{} {}..{}", meta.as_str(), span.start, span.end)
}

/// The attributes that the source begins with, and how many trees are left.
pub(crate) fn attributes(alloc: Global, given: &Value) -> anyhow::Result<String> {
    let trees = source_trees(alloc, given)?;
    match attributes_at(alloc, trees.as_slice()) {
        Ok((attributes, rest)) => {
            let mut texts: Vec<String> = attributes
                .as_slice()
                .iter()
                .map(|attribute| attribute_text(alloc, attribute))
                .try_collect(alloc)?;
            texts.push(format!(in alloc; "{} left", rest.len())?)?;
            Ok(texts.join(alloc, ", ")?)
        }
        Err(stop) => Ok(stopped(alloc, stop)?),
    }
}

/// The attributes of a source that begins with some that are of the grammar.
fn given_attributes(alloc: Global, given: &Value) -> anyhow::Result<List<Attribute>> {
    let trees = source_trees(alloc, given)?;
    match attributes_at(alloc, trees.as_slice()) {
        Ok((attributes, _)) => Ok(attributes),
        Err(_) => bail!("no attributes"),
    }
}

/// Whether each attribute of the source has the word alone as its path.
pub(crate) fn are_of_path(alloc: Global, given: &Value) -> anyhow::Result<String> {
    let (given, word) = pair_of(given)?;
    let word = text_of(word)?;
    let attributes = given_attributes(alloc, given)?;
    let texts: Vec<&str> = attributes
        .as_slice()
        .iter()
        .map(|attribute| yes_or_no(attribute.is(word)))
        .collect(alloc)?;
    Ok(texts.join(alloc, ", ")?)
}

/// Whether each tree of the source is an inner doc comment.
pub(crate) fn are_inner_docs(alloc: Global, given: &Value) -> anyhow::Result<String> {
    let trees = source_trees(alloc, given)?;
    let texts: Vec<&str> = trees
        .as_slice()
        .iter()
        .map(|tree| yes_or_no(is_inner_doc(tree)))
        .collect(alloc)?;
    Ok(texts.join(alloc, ", ")?)
}

/// The name of the item, and its value where it has one.
fn item_text(alloc: Global, item: &SerdeItem) -> Result<String, AllocError> {
    let name = item.name.text.as_str();
    match &item.value {
        None => name.to_string(alloc),
        Some(value) => format!(in alloc; "{name} = {}", value.text.as_str()),
    }
}

/// The items of all serde lists of the source.
pub(crate) fn items(alloc: Global, given: &Value) -> anyhow::Result<String> {
    let attributes = given_attributes(alloc, given)?;
    let mut texts: Vec<String> = Vec::new(alloc);
    for attribute in attributes.as_slice() {
        for item in attribute.items.as_slice() {
            texts.push(item_text(alloc, item)?)?;
        }
    }
    Ok(texts.join(alloc, ", ")?)
}

fn given_docs(alloc: Global, given: &Value) -> anyhow::Result<CommentAttributes> {
    let attributes = given_attributes(alloc, given)?;
    Ok(CommentAttributes::from_attributes(alloc, attributes.as_slice())?)
}

/// The doc comments of the source as one text.
pub(crate) fn docs(alloc: Global, given: &Value) -> anyhow::Result<String> {
    let docs = given_docs(alloc, given)?.as_formatted_string(alloc)?;
    Ok(docs.as_str().to_string(alloc)?)
}

/// Whether the source has no doc comments.
pub(crate) fn has_no_docs(alloc: Global, given: &Value) -> anyhow::Result<String> {
    let is_empty = given_docs(alloc, given)?.is_empty();
    Ok(yes_or_no(is_empty).to_string(alloc)?)
}
