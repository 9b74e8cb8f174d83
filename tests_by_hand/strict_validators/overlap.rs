//! Types of which a JSON value can have the form of more than one schema.
use serde::{Deserialize, Serialize};

/// Is null in JSON.
#[derive(Serialize, Deserialize)]
pub struct Nothing;

/// An amount of either form. Where there is no unit it has both.
#[derive(Serialize, Deserialize)]
#[serde(untagged)]
pub enum Amount {
    Counted { count: u32 },
    Measured { count: u32, unit: Option<String> },
}

/// Null may be that of the option and that of what it holds.
#[derive(Serialize, Deserialize)]
pub struct Slot {
    pub nothing: Option<Nothing>,
    pub amounts: Vec<Amount>,
}
