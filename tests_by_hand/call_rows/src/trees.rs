//! Trees of written types, what the last name of a path says, and formats.

use anyhow::{Context, bail};
use diag::DeriveError;
use lexing::lex;
use rows::given::{pair_of, text_of};
use rows::refusal_text;
use serde_json::Value;
use std::alloc::{AllocError, Global};
use syntax::{GenericParam, Generics, parse_type};
use tokens::TokenTree;
use type_tree::{KnownFormat, PrimitiveType, SchemaType, TypeTree};
use words::ident_of;
use written_types::WrittenType;

/// The word, if it holds.
fn held(word: &'static str, holds: bool) -> &'static str {
    if holds { word } else { "" }
}

/// How many trees stand below the tree.
fn count_below(tree: &TypeTree<'_>) -> usize {
    match &tree.children {
        Some(children) => children.len(),
        None => 0,
    }
}

/// How many trees stand below the tree, and its tests that hold, one of them whether the name stands in it.
fn tree_text(alloc: Global, tree: &TypeTree<'_>, name: &str) -> Result<String, AllocError> {
    let below = count_below(tree).to_string(alloc)?;
    let words = [
        below.as_str(),
        held(" is_option", tree.is_option()),
        held(" is_map", tree.is_map()),
        held(" is_value", tree.is_value()),
        held(" is_object", tree.is_object()),
        held(" is", tree.is(name)),
    ];
    words.concat(alloc)
}

/// What a copy of the type's tree is.
fn copy_text(alloc: Global, ty: &WrittenType, name: &str) -> Result<String, DeriveError> {
    let tree = TypeTree::from_type(alloc, ty)?;
    let copy = tree.copy(alloc)?;
    Ok(tree_text(alloc, &copy, name)?)
}

/// What a copy of the tree of the text's type is.
fn parsed_text(alloc: Global, source: &str, name: &str) -> Result<String, DeriveError> {
    let ty = parse_type(alloc, source)?;
    copy_text(alloc, &ty, name)
}

/// The tree of the type.
pub(crate) fn tree(alloc: Global, given: &Value) -> anyhow::Result<String> {
    let (written, name) = pair_of(given)?;
    Ok(parsed_text(alloc, text_of(written)?, text_of(name)?)?)
}

/// What the parameter is, and its name.
fn parameter_text(alloc: Global, param: &GenericParam) -> Result<String, AllocError> {
    match param {
        GenericParam::Lifetime(ident) => format!(in alloc; "lifetime {}", ident.text.as_str()),
        GenericParam::Ty(ident) => format!(in alloc; "type {}", ident.text.as_str()),
        GenericParam::Constant(ident) => format!(in alloc; "constant {}", ident.text.as_str()),
    }
}

/// How many parameters there are, and each of them.
fn generics_text(alloc: Global, generics: &Generics) -> Result<String, AllocError> {
    let params = generics.params.as_slice();
    let mut text = params.len().to_string(alloc)?;
    for param in params {
        let param = parameter_text(alloc, param)?;
        text.push_str(", ")?;
        text.push_str(param.as_str())?;
    }
    Ok(text)
}

/// The generic parameters that the arguments of the type's path name.
fn type_generics(alloc: Global, ty: &WrittenType) -> Result<String, AllocError> {
    let tree = TypeTree::from_type(alloc, ty)?;
    match tree.get_path_generics(alloc)? {
        Some(generics) => generics_text(alloc, &generics),
        None => String::from_str(alloc, "no path"),
    }
}

/// The generic parameters that the arguments of the type's path name.
pub(crate) fn generics(alloc: Global, given: &Value) -> anyhow::Result<String> {
    let ty = parse_type(alloc, text_of(given)?)?;
    Ok(type_generics(alloc, &ty)?)
}

/// Whether the type is built-in, and unsigned.
fn sign(ty: &SchemaType<'_>) -> &'static str {
    match PrimitiveType::new(&ty.path) {
        Some(primitive) => {
            if primitive.ty.is_unsigned() {
                "unsigned"
            } else {
                "not unsigned"
            }
        }
        None => "not built-in",
    }
}

/// The tests of numbers that hold.
fn number_words(alloc: Global, ty: &SchemaType<'_>) -> Result<String, AllocError> {
    let words = [
        held(" is_primitive", ty.is_primitive()),
        held(" is_integer", ty.is_integer()),
        held(" is_unsigned_integer", ty.is_unsigned_integer()),
        held(" is_number", ty.is_number()),
    ];
    words.concat(alloc)
}

/// Whether the type is built-in, and its tests that hold.
fn type_words(alloc: Global, ty: &SchemaType<'_>) -> Result<String, AllocError> {
    let numbers = number_words(alloc, ty)?;
    let words = [
        sign(ty),
        numbers.as_str(),
        held(" is_string", ty.is_string()),
        held(" is_byte", ty.is_byte()),
        held(" is_value", ty.is_value()),
    ];
    words.concat(alloc)
}

/// What the last name of the type's path says.
fn path_words(alloc: Global, ty: &WrittenType, nullable: bool) -> anyhow::Result<String> {
    let path = TypeTree::from_type(alloc, ty)?.path;
    let path = path.context("a path")?;
    Ok(type_words(alloc, &SchemaType { path, nullable })?)
}

/// What the last name of the type's path says. The second of the list is whether null is a value.
pub(crate) fn tests(alloc: Global, given: &Value) -> anyhow::Result<String> {
    let (written, nullable) = pair_of(given)?;
    let nullable = nullable.as_bool().context("a truth value")?;
    let ty = parse_type(alloc, text_of(written)?)?;
    path_words(alloc, &ty, nullable)
}

/// Whether the format, of which a copy is equal, is known.
fn format_text(alloc: Global, format: &KnownFormat) -> Result<String, AllocError> {
    let copy = format.copy(alloc)?;
    let word = if copy != *format {
        "not equal"
    } else if copy.is_known_format() {
        "known"
    } else {
        "unknown"
    };
    String::from_str(alloc, word)
}

/// The format of the last name of the type's path.
fn path_format(alloc: Global, ty: &WrittenType) -> anyhow::Result<KnownFormat> {
    let path = TypeTree::from_type(alloc, ty)?.path;
    Ok(KnownFormat::from_path(&path.context("a path")?))
}

/// The format of the last name of the type's path.
pub(crate) fn format(alloc: Global, given: &Value) -> anyhow::Result<String> {
    let ty = parse_type(alloc, text_of(given)?)?;
    let format = path_format(alloc, &ty)?;
    Ok(format_text(alloc, &format)?)
}

/// The format of the trees behind the attribute and `=`.
fn format_of(
    alloc: Global,
    attribute: &TokenTree,
    value: &[TokenTree],
) -> Result<KnownFormat, DeriveError> {
    let TokenTree::Token(token) = attribute else {
        return Err(DeriveError::Memory);
    };
    let attribute = ident_of(alloc, token)?;
    KnownFormat::parse(alloc, value, &attribute)
}

/// What the format is, or why there is none.
fn found_text(
    alloc: Global,
    found: &Result<KnownFormat, DeriveError>,
) -> Result<String, AllocError> {
    match found {
        Ok(format) => format_text(alloc, format),
        Err(error) => refusal_text(alloc, error),
    }
}

/// The format that stands behind a name and `=`, or its refusal.
fn format_in(alloc: Global, trees: &[TokenTree]) -> anyhow::Result<String> {
    let [attribute, _, value @ ..] = trees else {
        bail!("a name, `=` and a value");
    };
    let found = format_of(alloc, attribute, value);
    Ok(found_text(alloc, &found)?)
}

/// The format that stands behind a name and `=`, or its refusal.
pub(crate) fn format_value(alloc: Global, given: &Value) -> anyhow::Result<String> {
    let trees = lex(alloc, text_of(given)?)?;
    format_in(alloc, trees.as_slice())
}
