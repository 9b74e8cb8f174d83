//! Single words, tokens and values.

use crate::answers::equality;
use anyhow::bail;
use configuration::{Config, SchemaCollect};
use diag::DeriveError;
use lexing::lex;
use rows::given::text_of;
use schema_core::Components;
use schema_trees::{Annotations, RefLeaf, Tree};
use serde_json::Value;
use serde_rules::SerdeEnumRepr;
use std::alloc::{AllocError, Global};
use texts::Text;
use tokens::{Cursor, TokenTree};
use words::lifetime_at;

/// The lifetime that the trees begin with.
fn first_lifetime(alloc: Global, trees: &[TokenTree]) -> anyhow::Result<String> {
    let Ok((token, _)) = lifetime_at(trees) else {
        bail!("no lifetime");
    };
    Ok(String::from_str(alloc, token.text.as_str())?)
}

/// The lifetime that the text begins with.
pub(crate) fn lifetime(alloc: Global, given: &Value) -> anyhow::Result<String> {
    let trees = lex(alloc, text_of(given)?)?;
    first_lifetime(alloc, trees.as_slice())
}

/// Whether a copy of the tree is equal.
fn has_equal_copy(alloc: Global, tree: &TokenTree) -> Result<bool, AllocError> {
    Ok(tree.copy(alloc)? == *tree)
}

/// How many trees stand in front of the first whose copy is not equal, or of the end.
fn count_equal(alloc: Global, trees: &[TokenTree]) -> Result<usize, DeriveError> {
    let mut cursor = Cursor::new(trees);
    let mut count = 0usize;
    for _ in 0..trees.len() {
        let Some((tree, after)) = cursor.token_tree() else {
            return Ok(count);
        };
        if cursor.is_empty() || !has_equal_copy(alloc, tree)? {
            return Ok(count);
        }
        cursor = after;
        count = count.saturating_add(1);
    }
    Ok(count)
}

/// How many trees the text has, read and copied one by one.
fn count_of(alloc: Global, source: &str) -> Result<usize, DeriveError> {
    let trees = lex(alloc, source)?;
    count_equal(alloc, trees.as_slice())
}

/// How many trees the text has, read and copied one by one.
pub(crate) fn count(alloc: Global, given: &Value) -> anyhow::Result<String> {
    let count = count_of(alloc, text_of(given)?)?;
    Ok(count.to_string(alloc)?)
}

/// Whether a copy of the representation is equal.
fn is_equal_copy(alloc: Global, of: &SerdeEnumRepr) -> Result<bool, AllocError> {
    Ok(of.copy(alloc)? == *of)
}

/// Whether a copy of the representation with the tag is equal.
fn has_equal_representation(alloc: Global, tag: &str) -> Result<bool, AllocError> {
    let tag = Text::new(alloc, tag)?;
    let of = SerdeEnumRepr::InternallyTagged { tag };
    is_equal_copy(alloc, &of)
}

/// Whether a copy of the representation with the tag is equal.
pub(crate) fn representation(alloc: Global, given: &Value) -> anyhow::Result<String> {
    let is_equal = has_equal_representation(alloc, text_of(given)?)?;
    Ok(String::from_str(alloc, equality(is_equal))?)
}

/// Which instances get a component where no configuration is given.
pub(crate) fn collected(alloc: Global) -> anyhow::Result<String> {
    let word = match Config::new(alloc).collect() {
        SchemaCollect::NonInlined => "NonInlined",
        SchemaCollect::All => "All",
    };
    Ok(String::from_str(alloc, word)?)
}

/// One component of the name, a reference to itself.
fn self_reference(alloc: Global, name: &str) -> Result<Components, AllocError> {
    let key = Text::new(alloc, name)?;
    let reference = RefLeaf {
        name: Text::new(alloc, name)?,
        annotations: Annotations::new(),
    };
    let mut components = Components::new(alloc);
    components.insert(key, Tree::Leaf(reference))?;
    Ok(components)
}

/// The document of one component of the name, a reference to itself.
pub(crate) fn document(alloc: Global, given: &Value) -> anyhow::Result<String> {
    let components = self_reference(alloc, text_of(given)?)?;
    let document = components.to_value(alloc)?;
    Ok(document.to_string(alloc)?)
}
