//! Kinds, diagnostics and errors.

use crate::refusals::{refused, reported};
use crate::{grown, renamed};
use anyhow::bail;
use diag::{DeriveError, Diagnostics, Kind, Suggestion};
use rows::given::{count_of, items_at, list_of, member, pair_of, text_at, text_of};
use serde_json::Value;
use std::alloc::{AllocError, Global};
use texts::{Span, Text};

/// All kinds, as they are declared.
const KINDS: [Kind; 26] = [
    Kind::BadConfig,
    Kind::BadRow,
    Kind::AliasDepth,
    Kind::TooLong,
    Kind::TooDeep,
    Kind::Syntax,
    Kind::UnknownAttribute,
    Kind::DuplicateFeature,
    Kind::BadValue,
    Kind::SerdeTag,
    Kind::MissingRow,
    Kind::DuplicateName,
    Kind::UnknownType,
    Kind::Arity,
    Kind::BadArgument,
    Kind::TypeSize,
    Kind::FlattenedMaps,
    Kind::Discriminator,
    Kind::TupleBound,
    Kind::TaggedTuple,
    Kind::NotSupported,
    Kind::TooManyInstances,
    Kind::NameClash,
    Kind::InlineDepth,
    Kind::TooManyCopies,
    Kind::Warning,
];

/// What the call of the crate `diag` answers.
pub(crate) fn told(alloc: Global, call: &str, given: &Value) -> anyhow::Result<String> {
    match call {
        "text" => grown::text(alloc, given),
        "texts" => grown::texts(alloc, given),
        "list" => grown::list(alloc, given),
        "lists" => grown::lists(alloc, given),
        "kinds" => Ok(kinds(alloc)?),
        "first" => first(alloc, given),
        "report" => report(alloc, given),
        "suggestions" => suggestions(alloc, given),
        "error" => error(alloc, given),
        "refusal" => refusal(alloc, given),
        "syntax" => Ok(refused(alloc, &DeriveError::syntax(alloc, span_of(given)?))?),
        "too deep" => Ok(refused(alloc, &DeriveError::too_deep(alloc, span_of(given)?))?),
        "rule" => renamed::rule(alloc, given),
        "renames" => renamed::renames(alloc, given),
        other => bail!("no call {other}"),
    }
}

/// The names of all kinds.
fn kinds(alloc: Global) -> Result<String, AllocError> {
    let mut text = String::new(alloc);
    for kind in KINDS {
        if !text.is_empty() {
            text.push_str(" ")?;
        }
        text.push_str(format!(in alloc; "{kind}")?.as_str())?;
    }
    Ok(text)
}

/// The kind that the row names.
fn kind_at(given: &Value) -> anyhow::Result<Kind> {
    let name = text_at(given, "kind")?;
    for kind in KINDS {
        if kind.name() == name {
            return Ok(kind);
        }
    }
    bail!("no kind {name}")
}

fn span_of(given: &Value) -> anyhow::Result<Span> {
    let (start, end) = pair_of(given)?;
    let (start, end) = (count_of(start)?, count_of(end)?);
    if start > end {
        bail!("a span from {start} to {end}");
    }
    Ok(Span::new(start, end))
}

/// The suggestion of its word and its text.
fn suggestion_of(alloc: Global, given: &Value) -> anyhow::Result<Suggestion> {
    let (word, text) = pair_of(given)?;
    let text = Text::new(alloc, text_of(text)?)?;
    match text_of(word)? {
        "help" => Ok(Suggestion::Help(text)),
        "note" => Ok(Suggestion::Note(text)),
        other => bail!("no suggestion {other}"),
    }
}

fn suggested(diagnostics: Diagnostics, suggestion: &Suggestion) -> Result<Diagnostics, AllocError> {
    match suggestion {
        Suggestion::Help(text) => diagnostics.help(text.as_str()),
        Suggestion::Note(text) => diagnostics.note(text.as_str()),
    }
}

fn placed(alloc: Global, given: &Value) -> anyhow::Result<Diagnostics> {
    let (kind, message) = (kind_at(given)?, text_at(given, "message")?);
    match given.get("span") {
        Some(span) => Ok(Diagnostics::with_span(alloc, kind, span_of(span)?, message)?),
        None => Ok(Diagnostics::new(alloc, kind, message)?),
    }
}

/// One entry, with its suggestions and instances in the order in which they are given.
fn entry(alloc: Global, given: &Value) -> anyhow::Result<Diagnostics> {
    let mut diagnostics = placed(alloc, given)?;
    for suggestion in items_at(given, "suggestions")? {
        let suggestion = suggestion_of(alloc, suggestion)?;
        diagnostics = suggested(diagnostics, &suggestion)?;
    }
    for instance in items_at(given, "instances")? {
        diagnostics = diagnostics.instance(text_of(instance)?)?;
    }
    Ok(diagnostics)
}

/// The diagnostics of the entries, joined.
fn joined(alloc: Global, given: &Value) -> anyhow::Result<Option<Diagnostics>> {
    let mut list = Vec::new(alloc);
    for given in list_of(given)? {
        list.push(entry(alloc, given)?)?;
    }
    Ok(Diagnostics::join(alloc, list)?)
}

fn first_text(alloc: Global, diagnostics: &Diagnostics) -> Result<String, AllocError> {
    let mut text = reported(alloc, diagnostics)?;
    for suggestion in diagnostics.suggestions() {
        text.push_str(format!(in alloc; "; {suggestion}")?.as_str())?;
    }
    Ok(text)
}

/// What the first of the joined entries reports, and its suggestions.
fn first(alloc: Global, given: &Value) -> anyhow::Result<String> {
    match joined(alloc, given)? {
        Some(diagnostics) => Ok(first_text(alloc, &diagnostics)?),
        None => Ok(String::from_str(alloc, "no diagnostics")?),
    }
}

/// The joined entries as a report prints them.
fn report(alloc: Global, given: &Value) -> anyhow::Result<String> {
    match joined(alloc, given)? {
        Some(diagnostics) => Ok(String::from_str(alloc, diagnostics.text(alloc)?.as_str())?),
        None => Ok(String::from_str(alloc, "no diagnostics")?),
    }
}

/// How the first of two suggestions compares with the other.
fn suggestions(alloc: Global, given: &Value) -> anyhow::Result<String> {
    let (one, other) = pair_of(given)?;
    let one = suggestion_of(alloc, one)?;
    let other = suggestion_of(alloc, other)?;
    Ok(format!(in alloc; "{:?}", one.cmp(&other))?)
}

/// The refusal by the joined entries as it is printed, or without an entry want of memory.
fn error(alloc: Global, given: &Value) -> anyhow::Result<String> {
    let error = match joined(alloc, given)? {
        Some(diagnostics) => DeriveError::Refused(diagnostics),
        None => DeriveError::from(AllocError),
    };
    Ok(format!(in alloc; "{error}")?)
}

/// The refusal by one diagnostic.
fn refusal(alloc: Global, given: &Value) -> anyhow::Result<String> {
    let (kind, span) = (kind_at(given)?, span_of(member(given, "span")?)?);
    let error = DeriveError::refusal(alloc, kind, span, text_at(given, "message")?);
    Ok(refused(alloc, &error)?)
}
