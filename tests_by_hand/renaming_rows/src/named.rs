//! Names by serde's rules.

use anyhow::{anyhow, bail};
use diag::{RenamePlace, RenameRule};
use renaming::renamed;
use rows::given::text_at;
use serde_json::Value;
use std::alloc::Global;
use std::str::FromStr;

/// The place of the name.
fn place_named(name: &str) -> anyhow::Result<RenamePlace> {
    match name {
        "field" => Ok(RenamePlace::Field),
        "variant" => Ok(RenamePlace::Variant),
        other => bail!("no place {other}"),
    }
}

/// What serde makes of the name by the rule, or that it makes nothing of it.
pub(crate) fn named(alloc: Global, given: &Value) -> anyhow::Result<String> {
    let rule = RenameRule::from_str(text_at(given, "rule")?).map_err(|_| anyhow!("no rule"))?;
    let place = place_named(text_at(given, "place")?)?;
    let text = match renamed(alloc, rule, place, text_at(given, "from")?)? {
        Some(name) => String::from_str(alloc, name.as_str()),
        None => String::from_str(alloc, "nothing"),
    };
    Ok(text?)
}
