//! Token trees.

use crate::answers::{copied, equality};
use crate::inputs::{first_tree, source, source_trees, two_sources};
use anyhow::{Context, bail};
use lexing::lex;
use rows::given::{count_of, list_of};
use rows::refusal_text;
use serde_json::Value;
use std::alloc::{AllocError, Global};
use texts::List;
use tokens::{Cursor, Token, TokenTree, copy_trees};

/// The kind, the text and the span of a token.
fn token_text(alloc: Global, token: &Token) -> Result<String, AllocError> {
    format!(in alloc;
        "{:?} {} {}..{}",
        token.kind,
        token.text.as_str(),
        token.span.start,
        token.span.end
    )
}

/// A tree as one word: a token's kind, text and span, a group's bracket, span and number of trees.
fn tree_text(alloc: Global, tree: &TokenTree) -> Result<String, AllocError> {
    match tree {
        TokenTree::Token(token) => token_text(alloc, token),
        TokenTree::Group(group) => format!(in alloc;
            "{:?} {}..{} of {}",
            group.bracket,
            group.span.start,
            group.span.end,
            group.trees.len()
        ),
    }
}

fn trees_text(alloc: Global, trees: &[TokenTree]) -> Result<String, AllocError> {
    let texts: Vec<String> = trees
        .iter()
        .map(|tree| tree_text(alloc, tree))
        .try_collect(alloc)?;
    texts.join(alloc, ", ")
}

/// The token trees of the source.
pub(crate) fn lexed(alloc: Global, given: &Value) -> anyhow::Result<String> {
    let source = source(alloc, given)?;
    match lex(alloc, source.as_str()) {
        Ok(trees) => Ok(trees_text(alloc, trees.as_slice())?),
        Err(error) => Ok(refusal_text(alloc, &error)?),
    }
}

/// The tree at the place, and the place behind it.
fn at_place<'t>(trees: &'t [TokenTree], place: usize) -> Option<(&'t TokenTree, Cursor<'t>)> {
    let mut cursor = Cursor::new(trees);
    for _ in 0..place {
        let (_, after) = cursor.token_tree()?;
        cursor = after;
    }
    cursor.token_tree()
}

/// The trees inside of the group at the place.
fn inside<'t>(trees: &'t [TokenTree], place: usize) -> anyhow::Result<&'t [TokenTree]> {
    match trees.get(place) {
        Some(TokenTree::Group(group)) => Ok(group.trees.as_slice()),
        _ => bail!("no group at {place}"),
    }
}

/// The tree at the last of the places, inside of the groups at the places before it, and whether more follows.
pub(crate) fn tree_at(alloc: Global, given: &Value) -> anyhow::Result<String> {
    let Some((given, places)) = list_of(given)?.split_first() else {
        bail!("no source");
    };
    let (last, places) = places.split_last().context("a place")?;
    let lexed = source_trees(alloc, given)?;
    let mut trees = lexed.as_slice();
    for place in places {
        trees = inside(trees, count_of(place)?)?;
    }
    let Some((tree, after)) = at_place(trees, count_of(last)?) else {
        return Ok("the end".to_string(alloc)?);
    };
    let follows = if after.is_empty() { "the end" } else { "more" };
    Ok(format!(in alloc; "{}, then {follows}", tree_text(alloc, tree)?)?)
}

/// Whether the trees of two sources are equal.
pub(crate) fn compared(alloc: Global, given: &Value) -> anyhow::Result<String> {
    let (trees, others) = two_sources(alloc, given)?;
    Ok(equality(trees == others).to_string(alloc)?)
}

/// The copies of all trees of the source.
pub(crate) fn all_copied(alloc: Global, given: &Value) -> anyhow::Result<String> {
    let trees = source_trees(alloc, given)?;
    let copies = copy_trees(alloc, trees.as_slice())?;
    let text = trees_text(alloc, copies.as_slice())?;
    Ok(copied(alloc, text.as_str(), copies == trees)?)
}

/// The copy of each tree of the source.
pub(crate) fn each_copied(alloc: Global, given: &Value) -> anyhow::Result<String> {
    let trees = source_trees(alloc, given)?;
    let mut copies = List::new(alloc);
    for tree in trees.as_slice() {
        copies.push(tree.copy(alloc)?)?;
    }
    let text = trees_text(alloc, copies.as_slice())?;
    Ok(copied(alloc, text.as_str(), copies == trees)?)
}

/// The copy of the source's first token.
pub(crate) fn token_copied(alloc: Global, given: &Value) -> anyhow::Result<String> {
    let trees = source_trees(alloc, given)?;
    let TokenTree::Token(token) = first_tree(trees.as_slice())? else {
        bail!("no token");
    };
    let copy = token.copy(alloc)?;
    let text = token_text(alloc, &copy)?;
    Ok(copied(alloc, text.as_str(), copy == *token)?)
}
