//! What token trees are to the grammar, and the readers of single words.

use crate::answers::{bytes, stopped, then_left};
use crate::inputs::{first_tree, source_trees, span, two_sources};
use anyhow::bail;
use rows::given::pair_of;
use serde_json::Value;
use std::alloc::{AllocError, Global};
use texts::Span;
use tokens::{Token, TokenTree};
use words::{
    Stop, Word, after_comma, covering, group_at, ident_of, keyword_at, lifetime_at, lifetime_of,
    literal_at, name_at, optional_keyword, optional_lifetime, optional_sign, path_word_at, sign_at,
    start_of, stop_at, word_of,
};
use written_types::Ident;

/// What the word is, and its text, its span or its number of trees.
fn word_text(alloc: Global, word: Word<'_>) -> Result<String, AllocError> {
    match word {
        Word::Name(token) => format!(in alloc; "name {}", token.text.as_str()),
        Word::Underscore(token) => format!(in alloc; "underscore {}", token.text.as_str()),
        Word::Keyword(keyword, token) => {
            format!(in alloc; "keyword {keyword:?} {}", token.text.as_str())
        }
        Word::Sign(sign, span) => format!(in alloc; "sign {sign:?} {}..{}", span.start, span.end),
        Word::Lifetime(token) => format!(in alloc; "lifetime {}", token.text.as_str()),
        Word::Literal(token) => format!(in alloc; "literal {}", token.text.as_str()),
        Word::Doc(token) => format!(in alloc; "doc {}", token.text.as_str()),
        Word::Group(group) => format!(in alloc; "group of {}", group.trees.len()),
    }
}

/// What each tree of the source is.
pub(crate) fn words(alloc: Global, given: &Value) -> anyhow::Result<String> {
    let trees = source_trees(alloc, given)?;
    let texts: Vec<String> = trees
        .as_slice()
        .iter()
        .map(|tree| word_text(alloc, word_of(tree)))
        .try_collect(alloc)?;
    Ok(texts.join(alloc, ", ")?)
}

/// A name without `r#`, whether it is raw, and its span.
pub(crate) fn ident_text(alloc: Global, ident: &Ident) -> Result<String, AllocError> {
    let mark = if ident.raw { " raw" } else { "" };
    let span = ident.span;
    format!(in alloc;
        "{}{mark} {}..{}",
        ident.text.as_str(),
        span.start,
        span.end
    )
}

/// The first of the trees, as a token.
fn first_token(trees: &[TokenTree]) -> anyhow::Result<&Token> {
    match first_tree(trees)? {
        TokenTree::Token(token) => Ok(token),
        TokenTree::Group(_) => bail!("no token"),
    }
}

/// The name that the source's first token is.
pub(crate) fn first_ident(alloc: Global, given: &Value) -> anyhow::Result<Ident> {
    let trees = source_trees(alloc, given)?;
    Ok(ident_of(alloc, first_token(trees.as_slice())?)?)
}

/// The text of the name that the source's first token is.
pub(crate) fn ident(alloc: Global, given: &Value) -> anyhow::Result<String> {
    let ident = first_ident(alloc, given)?;
    Ok(ident_text(alloc, &ident)?)
}

/// The text of the lifetime that the source's first token is.
pub(crate) fn lifetime(alloc: Global, given: &Value) -> anyhow::Result<String> {
    let trees = source_trees(alloc, given)?;
    let lifetime = lifetime_of(alloc, first_token(trees.as_slice())?)?;
    Ok(ident_text(alloc, &lifetime)?)
}

/// The token that the reader of the name reads at the front of the source.
pub(crate) fn token(alloc: Global, reader: &str, given: &Value) -> anyhow::Result<String> {
    let trees = source_trees(alloc, given)?;
    let trees = trees.as_slice();
    let read = match reader {
        "name_at" => name_at(trees),
        "path_word_at" => path_word_at(trees),
        "lifetime_at" => lifetime_at(trees),
        "literal_at" => literal_at(trees),
        _ => match optional_lifetime(trees) {
            Some(found) => Ok(found),
            None => return Ok("nothing".to_string(alloc)?),
        },
    };
    match read {
        Ok((token, rest)) => Ok(then_left(alloc, token.text.as_str(), rest)?),
        Err(stop) => Ok(stopped(alloc, stop)?),
    }
}

/// The span that was read, and how many trees are left.
fn span_read(
    alloc: Global,
    read: Result<(Span, &[TokenTree]), Stop>,
) -> Result<String, AllocError> {
    match read {
        Ok((span, rest)) => then_left(alloc, bytes(alloc, span)?.as_str(), rest),
        Err(stop) => stopped(alloc, stop),
    }
}

/// The span that was found, and how many trees are left.
fn span_found(alloc: Global, found: Option<(Span, &[TokenTree])>) -> Result<String, AllocError> {
    match found {
        Some(found) => span_read(alloc, Ok(found)),
        None => "nothing".to_string(alloc),
    }
}

/// Where the keyword, which is given as the second source, stands at the front of the first.
pub(crate) fn keyword(alloc: Global, reader: &str, given: &Value) -> anyhow::Result<String> {
    let (trees, asked) = two_sources(alloc, given)?;
    let Word::Keyword(keyword, _) = word_of(first_tree(asked.as_slice())?) else {
        bail!("no keyword");
    };
    let trees = trees.as_slice();
    match reader {
        "keyword_at" => Ok(span_read(alloc, keyword_at(trees, keyword))?),
        _ => Ok(span_found(alloc, optional_keyword(trees, keyword))?),
    }
}

/// Where the sign, which is given as the second source, stands at the front of the first.
pub(crate) fn sign(alloc: Global, reader: &str, given: &Value) -> anyhow::Result<String> {
    let (trees, asked) = two_sources(alloc, given)?;
    let Word::Sign(sign, _) = word_of(first_tree(asked.as_slice())?) else {
        bail!("no sign");
    };
    let trees = trees.as_slice();
    match reader {
        "sign_at" => Ok(span_read(alloc, sign_at(trees, sign))?),
        _ => Ok(span_found(alloc, optional_sign(trees, sign))?),
    }
}

/// Where a group stands at the front of the first source, in the brackets of the second.
pub(crate) fn group(alloc: Global, given: &Value) -> anyhow::Result<String> {
    let (trees, asked) = two_sources(alloc, given)?;
    let TokenTree::Group(asked) = first_tree(asked.as_slice())? else {
        bail!("no brackets");
    };
    match group_at(trees.as_slice(), asked.bracket) {
        Ok((group, rest)) => Ok(span_read(alloc, Ok((group.span, rest)))?),
        Err(stop) => Ok(stopped(alloc, stop)?),
    }
}

/// Why reading cannot go on with the source.
pub(crate) fn stop(alloc: Global, given: &Value) -> anyhow::Result<String> {
    let trees = source_trees(alloc, given)?;
    Ok(stopped(alloc, stop_at(trees.as_slice()))?)
}

/// Where the source's first tree begins.
pub(crate) fn start(alloc: Global, given: &Value) -> anyhow::Result<String> {
    let trees = source_trees(alloc, given)?;
    Ok(bytes(alloc, start_of(first_tree(trees.as_slice())?))?)
}

/// From the start of the first span to the end of the second.
pub(crate) fn covered(alloc: Global, given: &Value) -> anyhow::Result<String> {
    let (first, last) = pair_of(given)?;
    Ok(bytes(alloc, covering(span(first)?, span(last)?))?)
}

/// Why reading cannot go on with the first source, where that is inside of the group that the second begins with.
pub(crate) fn stop_inside(alloc: Global, given: &Value) -> anyhow::Result<String> {
    let (trees, outside) = two_sources(alloc, given)?;
    let TokenTree::Group(group) = first_tree(outside.as_slice())? else {
        bail!("no group");
    };
    Ok(stopped(alloc, stop_at(trees.as_slice()).inside(group))?)
}

/// How many trees of the source are left behind its comma.
pub(crate) fn after_one_comma(alloc: Global, given: &Value) -> anyhow::Result<String> {
    let trees = source_trees(alloc, given)?;
    match after_comma(trees.as_slice()) {
        Ok(rest) => Ok(format!(in alloc; "{} left", rest.len())?),
        Err(stop) => Ok(stopped(alloc, stop)?),
    }
}
