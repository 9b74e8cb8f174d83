//! What the aliases of a configuration make of written types.

use crate::answers::{equality, word_or_refusal};
use configuration::Config;
use configuration_json::FromJson;
use diag::DeriveError;
use rows::given::{member, text_at};
use serde_json::Value;
use std::alloc::Global;
use syntax::parse_type;
use type_tree::{SynPathExt, TypeTree};
use written_types::WrittenType;

/// Whether the type is that of the text.
fn compared(alloc: Global, found: &WrittenType, wanted: &str) -> Result<&'static str, DeriveError> {
    let wanted = parse_type(alloc, wanted)?;
    Ok(equality(*found == wanted))
}

/// Whether the path becomes the wanted type, where its aliases are replaced.
fn rewritten(
    alloc: Global,
    config: &Config,
    written: &str,
    wanted: &str,
) -> Result<&'static str, DeriveError> {
    let ty = parse_type(alloc, written)?;
    let WrittenType::Path(path) = &ty else {
        return Ok("no path");
    };
    let found = path.rewrite_path(alloc, config)?;
    compared(alloc, &found, wanted)
}

/// Whether the last name of the type is an alias of the wanted type.
fn aliased(
    alloc: Global,
    config: &Config,
    written: &str,
    wanted: &str,
) -> Result<&'static str, DeriveError> {
    let ty = parse_type(alloc, written)?;
    let tree = TypeTree::from_type(alloc, &ty)?;
    match tree.get_alias_type(alloc, config)? {
        Some(found) => compared(alloc, &found, wanted),
        None => Ok("no alias"),
    }
}

/// Whether the row's path becomes the row's type by the configuration, or why it is refused.
pub(crate) fn path(alloc: Global, given: &Value) -> anyhow::Result<String> {
    let config = Config::from_value(alloc, member(given, "configuration")?)?;
    let made = rewritten(
        alloc,
        &config,
        text_at(given, "path")?,
        text_at(given, "type")?,
    );
    Ok(word_or_refusal(alloc, &made)?)
}

/// Whether the last name of the row's path is an alias of the row's type by the configuration.
pub(crate) fn alias(alloc: Global, given: &Value) -> anyhow::Result<String> {
    let config = Config::from_value(alloc, member(given, "configuration")?)?;
    let made = aliased(
        alloc,
        &config,
        text_at(given, "path")?,
        text_at(given, "type")?,
    );
    Ok(word_or_refusal(alloc, &made)?)
}
