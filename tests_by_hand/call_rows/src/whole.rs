//! Values that hold no float.

use anyhow::bail;
use schema_trees::Json;
use serde_json::Value;

/// A copy of the value, which may hold no float.
pub(crate) fn json_of(value: &Value) -> anyhow::Result<Json> {
    match Json::new(value.clone()?) {
        Ok(json) => Ok(json),
        Err(_back) => bail!("a value with a float"),
    }
}
