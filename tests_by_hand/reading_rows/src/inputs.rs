//! What calls are given.

use anyhow::{Context, bail};
use lexing::lex;
use rows::given::{count_of, list_of, pair_of, text_of};
use serde_json::Value;
use std::alloc::Global;
use texts::{List, Span};
use tokens::TokenTree;

/// The text, and how often it stands.
fn repeated(part: &Value) -> anyhow::Result<(&str, usize)> {
    if let Some(text) = part.as_str() {
        return Ok((text, 1));
    }
    let (text, times) = pair_of(part)?;
    Ok((text_of(text)?, count_of(times)?))
}

/// A source: a text, or a list of its parts, of which each is a text or a list of a text and how often it stands.
pub(crate) fn source(alloc: Global, given: &Value) -> anyhow::Result<String> {
    let mut source = String::new(alloc);
    if let Some(text) = given.as_str() {
        source.push_str(text)?;
        return Ok(source);
    }
    for part in list_of(given)? {
        let (text, times) = repeated(part)?;
        for _ in 0..times {
            source.push_str(text)?;
        }
    }
    Ok(source)
}

/// The token trees of a source that can be cut.
pub(crate) fn source_trees(alloc: Global, given: &Value) -> anyhow::Result<List<TokenTree>> {
    let source = source(alloc, given)?;
    Ok(lex(alloc, source.as_str())?)
}

/// The token trees of two sources.
pub(crate) fn two_sources(
    alloc: Global,
    given: &Value,
) -> anyhow::Result<(List<TokenTree>, List<TokenTree>)> {
    let (first, second) = pair_of(given)?;
    Ok((source_trees(alloc, first)?, source_trees(alloc, second)?))
}

/// The first of the trees.
pub(crate) fn first_tree(trees: &[TokenTree]) -> anyhow::Result<&TokenTree> {
    trees.first().context("a tree")
}

/// A span, as the list of its start and its end.
pub(crate) fn span(given: &Value) -> anyhow::Result<Span> {
    let (start, end) = pair_of(given)?;
    let (start, end) = (count_of(start)?, count_of(end)?);
    if start > end {
        bail!("no span: {given}");
    }
    Ok(Span { start, end })
}
