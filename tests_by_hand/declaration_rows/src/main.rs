//! Rows of whole files: what a file is, and which of its declarations are taken.
#![tactic(auto)]

use anyhow::bail;
use configuration::Config;
use prepare::{FileItem, file_parts};
use rows::given::text_of;
use rows::{Row, refusal_text, run};
use selecting::{Selection, select};
use serde_json::Value;
use std::alloc::{AllocError, Global};
use texts::{List, Text};

/// The JSON list of the texts of those that are selected.
fn texts_of(alloc: Global, items: &[FileItem], serde: bool) -> Result<String, AllocError> {
    let selection = Selection {
        serde,
        only: List::new(alloc),
        exclude: List::new(alloc),
        skip_refused: false,
        not_plain: false,
        own: 1,
    };
    let names = [Text::new(alloc, "a.rs")?];
    let mut config = Config::new(alloc);
    let selected = select(alloc, &selection, &names, items, &[], &mut config)?;
    let mut texts = Vec::new(alloc);
    for item in selected.items.as_slice() {
        texts.push(Value::String(String::from_str(alloc, item.text.as_str())?))?;
    }
    Value::Array(texts).to_string(alloc)
}

/// The texts of the file's declarations, or why it is refused.
fn declared(alloc: Global, given: &Value, serde: bool) -> anyhow::Result<String> {
    match file_parts(alloc, 0, text_of(given)?) {
        Ok(parts) => Ok(texts_of(alloc, parts.items.as_slice(), serde)?),
        Err(error) => Ok(refusal_text(alloc, &error)?),
    }
}

/// What the call of the row answers.
fn told(alloc: Global, row: &Row) -> anyhow::Result<String> {
    match row.call.as_str() {
        "all" => declared(alloc, &row.given, false),
        "serde" => declared(alloc, &row.given, true),
        other => bail!("no call {other}"),
    }
}

fn main(rt: HostRuntime) -> anyhow::Result<()> {
    run(&rt, |rt, row| told(rt.alloc(), row))
}
