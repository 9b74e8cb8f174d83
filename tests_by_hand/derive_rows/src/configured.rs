//! Configurations.

use crate::parts::bytes_of;
use crate::refusals::refused;
use crate::renamed::renamed;
use anyhow::bail;
use configuration::Config;
use configuration_json::{FromJson, bad_config};
use diag::DeriveError;
use rows::given::{items_at, member};
use serde_json::Value;
use std::alloc::{AllocError, Global};

/// What the call of the crate `configuration` answers.
pub(crate) fn told(alloc: Global, call: &str, given: &Value) -> anyhow::Result<String> {
    match call {
        "new" => Ok(config_text(alloc, Ok(Config::new(alloc)))?),
        "refusal" => Ok(config_text(alloc, Err(bad_config(alloc)))?),
        "value" => Ok(config_text(alloc, Config::from_value(alloc, given))?),
        "text" => {
            let bytes = bytes_of(alloc, given)?;
            Ok(config_text(alloc, Config::from_slice(alloc, &bytes))?)
        }
        "renames" => renames(alloc, given),
        other => bail!("no call {other}"),
    }
}

/// Both limits, and which instances get a component.
fn config_text(alloc: Global, config: Result<Config, DeriveError>) -> Result<String, AllocError> {
    match config {
        Ok(config) => format!(in alloc;
            "limit {}, copies {}, {:?}",
            config.limit(),
            config.copies(),
            config.collect()
        ),
        Err(error) => refused(alloc, &error),
    }
}

/// What the names become by the configuration's rows.
fn renames(alloc: Global, given: &Value) -> anyhow::Result<String> {
    let config = Config::from_value(alloc, member(given, "configuration")?)?;
    renamed(alloc, config.renames(), items_at(given, "names")?)
}
