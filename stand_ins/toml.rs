//! Stand-ins for types of the crate `toml`, with serde as it is by default. Compared with toml 0.5.11.
//!
//! `toml::Value` and `toml::map::Map` are the built-in `Value` and `Map`, by their names: any value.

/// A TOML date or time, in the form that the crate keeps it in where it does not write TOML.
pub struct Datetime {
    #[serde(rename = "$__toml_private_datetime")]
    pub text: String,
}
pub struct Table(Map<String, Value>);
