//! The values of tokens.

use crate::inputs::source;
use literal_values::{LiteralValue, literal_value, text_value};
use serde_json::Value;
use std::alloc::{AllocError, Global};
use texts::{Span, Text};
use tokens::{Token, TokenKind};

/// The kinds of tokens that are no literals, by their names.
const KINDS: [(&str, TokenKind); 4] = [
    ("Ident", TokenKind::Ident),
    ("Lifetime", TokenKind::Lifetime),
    ("Punct", TokenKind::Punct),
    ("Doc", TokenKind::Doc),
];

/// The kind of the token that is given, and what gives its text.
fn kind_and_text(given: &Value) -> (TokenKind, &Value) {
    for (name, kind) in KINDS {
        if let Some(text) = given.get(name) {
            return (kind, text);
        }
    }
    (TokenKind::Literal, given)
}

/// A token that need not be cut from a source: a literal with the text, or for an object a token of the kind that its
/// member names.
fn token(alloc: Global, given: &Value) -> anyhow::Result<Token> {
    let (kind, text) = kind_and_text(given);
    Ok(Token {
        kind,
        text: Text::from(source(alloc, text)?),
        span: Span::nowhere(),
    })
}

fn value_text(alloc: Global, value: &LiteralValue) -> Result<String, AllocError> {
    match value {
        LiteralValue::Text(text) => format!(in alloc; "text {}", text.as_str()),
        LiteralValue::Number(number) => format!(in alloc; "number {number}"),
        LiteralValue::Bool(holds) => format!(in alloc; "bool {holds}"),
    }
}

fn found_text(alloc: Global, value: Option<LiteralValue>) -> Result<String, AllocError> {
    match value {
        Some(value) => value_text(alloc, &value),
        None => "nothing".to_string(alloc),
    }
}

/// The value of a token.
pub(crate) fn value(alloc: Global, given: &Value) -> anyhow::Result<String> {
    let token = token(alloc, given)?;
    let value = literal_value(alloc, &token)?;
    Ok(found_text(alloc, value)?)
}

/// The value of a token that is a string.
pub(crate) fn text(alloc: Global, given: &Value) -> anyhow::Result<String> {
    let token = token(alloc, given)?;
    let text = text_value(alloc, &token)?;
    Ok(found_text(alloc, text.map(LiteralValue::Text))?)
}
