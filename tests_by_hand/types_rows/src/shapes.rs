//! Trees of written types.

use crate::parts::names_holding;
use anyhow::{Context, bail, ensure};
use rows::given::{count_of, list_of, pair_of, text_of};
use serde_json::Value;
use std::alloc::{AllocError, Global};
use syntax::parse_type;
use type_tree::{TypeTree, trees_are_equal_by_text};
use written_types::WrittenType;

/// The tests of a tree that hold.
fn holding(alloc: Global, tree: &TypeTree<'_>) -> Result<String, AllocError> {
    let tests = [
        ("is_option", tree.is_option()),
        ("is_map", tree.is_map()),
        ("is_value", tree.is_value()),
        ("is_object", tree.is_object()),
    ];
    names_holding(alloc, tests.as_slice())
}

/// The last name of the tree's path.
fn name_of<'a>(tree: &'a TypeTree<'_>) -> &'a str {
    match &tree.path {
        Some(path) => path.last_name(),
        None => "no path",
    }
}

fn container_of(alloc: Global, tree: &TypeTree<'_>) -> Result<String, AllocError> {
    match tree.generic_type {
        Some(generic) => format!(in alloc; "{generic:?}"),
        None => String::from_str(alloc, "no container"),
    }
}

fn bytes_of(alloc: Global, tree: &TypeTree<'_>) -> Result<String, AllocError> {
    match tree.span {
        Some(span) => format!(in alloc; "{}..{}", span.start, span.end),
        None => String::from_str(alloc, "no bytes"),
    }
}

/// How many trees stand below.
fn count_below(alloc: Global, tree: &TypeTree<'_>) -> Result<String, AllocError> {
    match &tree.children {
        Some(children) => children.len().to_string(alloc),
        None => String::from_str(alloc, "nothing"),
    }
}

/// The last name of the tree's path, what its values are, its container, its bytes, how many trees stand below it, and its
/// tests that hold.
fn tree_text(alloc: Global, tree: &TypeTree<'_>) -> Result<String, AllocError> {
    format!(in alloc;
        "{}: {:?}, {}, {}, {} below; {}",
        name_of(tree),
        tree.value_type,
        container_of(alloc, tree)?,
        bytes_of(alloc, tree)?,
        count_below(alloc, tree)?,
        holding(alloc, tree)?
    )
}

/// The tree below at the places.
fn below<'a, 't>(tree: &'a TypeTree<'t>, places: &[Value]) -> anyhow::Result<&'a TypeTree<'t>> {
    let [place, further @ ..] = places else {
        return Ok(tree);
    };
    let children = tree.children.as_ref().context("trees below")?;
    let child = children
        .get(count_of(place)?)
        .context("a tree at the place")?;
    below(child, further)
}

/// A type, and the places where to look below its tree.
fn type_and_places(given: &Value) -> anyhow::Result<(&str, &[Value])> {
    match list_of(given)? {
        [written, places @ ..] => Ok((text_of(written)?, places)),
        [] => bail!("a list of a type and places"),
    }
}

/// The tree of a type, or the one below it at the places that the list goes on with.
pub(crate) fn tree(alloc: Global, given: &Value) -> anyhow::Result<String> {
    let (written, places) = type_and_places(given)?;
    let ty = parse_type(alloc, written)?;
    let tree = TypeTree::from_type(alloc, &ty)?;
    Ok(tree_text(alloc, below(&tree, places)?)?)
}

/// The copy of the tree, which is equal.
fn equal_copy<'t>(alloc: Global, tree: &TypeTree<'t>) -> anyhow::Result<TypeTree<'t>> {
    let copy = tree.copy(alloc)?;
    ensure!(copy == *tree, "the copy is not equal");
    Ok(copy)
}

/// The copy of the same tree.
pub(crate) fn tree_copy(alloc: Global, given: &Value) -> anyhow::Result<String> {
    let (written, places) = type_and_places(given)?;
    let ty = parse_type(alloc, written)?;
    let tree = TypeTree::from_type(alloc, &ty)?;
    let copy = equal_copy(alloc, &tree)?;
    Ok(tree_text(alloc, below(&copy, places)?)?)
}

/// Whether the name stands in the type's tree.
fn is_in(alloc: Global, ty: &WrittenType, name: &str) -> Result<bool, AllocError> {
    let tree = TypeTree::from_type(alloc, ty)?;
    Ok(tree.is(name))
}

/// Whether the second text is a name in the tree of the first, a type.
pub(crate) fn mentions(alloc: Global, given: &Value) -> anyhow::Result<String> {
    let (written, name) = pair_of(given)?;
    let ty = parse_type(alloc, text_of(written)?)?;
    let is_in = is_in(alloc, &ty, text_of(name)?)?;
    Ok(is_in.to_string(alloc)?)
}

/// Whether the trees are equal.
fn have_equal_trees(
    alloc: Global,
    ty: &WrittenType,
    other: &WrittenType,
) -> Result<bool, AllocError> {
    let tree = TypeTree::from_type(alloc, ty)?;
    let other = TypeTree::from_type(alloc, other)?;
    trees_are_equal_by_text();
    Ok(tree == other)
}

/// Whether the trees of the two types are equal.
pub(crate) fn equal(alloc: Global, given: &Value) -> anyhow::Result<String> {
    let (written, other) = pair_of(given)?;
    let ty = parse_type(alloc, text_of(written)?)?;
    let other_ty = parse_type(alloc, text_of(other)?)?;
    let equal = have_equal_trees(alloc, &ty, &other_ty)?;
    Ok(equal.to_string(alloc)?)
}
