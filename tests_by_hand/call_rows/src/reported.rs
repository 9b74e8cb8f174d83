//! Diagnostics and their suggestions.

use anyhow::bail;
use diag::{Diagnostics, Kind};
use rows::given::{list_of, text_of};
use serde_json::Value;
use std::alloc::{AllocError, Global};

/// One entry with the message, the note, the help and the instance.
fn entry(
    alloc: Global,
    message: &str,
    note: &str,
    help: &str,
    instance: &str,
) -> Result<Diagnostics, AllocError> {
    let noted = Diagnostics::new(alloc, Kind::Syntax, message)?.note(note)?;
    noted.help(help)?.instance(instance)
}

/// The entry of a message, a note, a help and an instance.
fn entry_of(alloc: Global, given: &Value) -> anyhow::Result<Diagnostics> {
    let [message, note, help, instance] = list_of(given)? else {
        bail!("four texts");
    };
    let (message, note, help) = (text_of(message)?, text_of(note)?, text_of(help)?);
    Ok(entry(alloc, message, note, help, text_of(instance)?)?)
}

/// The joined entries.
fn joined(alloc: Global, given: &Value) -> anyhow::Result<Option<Diagnostics>> {
    let mut list = Vec::new(alloc);
    for given in list_of(given)? {
        list.push(entry_of(alloc, given)?)?;
    }
    Ok(Diagnostics::join(alloc, list)?)
}

/// The entries as a report prints them.
fn report_text(alloc: Global, entries: &Option<Diagnostics>) -> Result<String, AllocError> {
    match entries {
        Some(diagnostics) => String::from_str(alloc, diagnostics.text(alloc)?.as_str()),
        None => String::from_str(alloc, "no diagnostics"),
    }
}

/// The joined entries as a report prints them.
pub(crate) fn report(alloc: Global, given: &Value) -> anyhow::Result<String> {
    let entries = joined(alloc, given)?;
    Ok(report_text(alloc, &entries)?)
}

/// How many suggestions and how many instances the first entry has, and its message.
fn first_text(alloc: Global, entries: &Option<Diagnostics>) -> Result<String, AllocError> {
    let Some(first) = entries else {
        return String::from_str(alloc, "no diagnostics");
    };
    let (suggestions, instances) = (first.suggestions().len(), first.instances().len());
    format!(in alloc; "{suggestions} {instances} {}", first.message())
}

/// What the first of the joined entries has.
pub(crate) fn first(alloc: Global, given: &Value) -> anyhow::Result<String> {
    let entries = joined(alloc, given)?;
    Ok(first_text(alloc, &entries)?)
}
