//! The functions that `with` and its kind name in types.rs.

use serde::de::Error;
use serde::{Deserialize, Deserializer, Serializer};

/// A number as a text.
pub mod as_text {
    use super::*;

    pub fn serialize<S: Serializer>(number: &u8, to: S) -> Result<S::Ok, S::Error> {
        to.collect_str(number)
    }

    pub fn deserialize<'de, D: Deserializer<'de>>(from: D) -> Result<u8, D::Error> {
        String::deserialize(from)?.parse().map_err(D::Error::custom)
    }
}

/// A number as a text, or null.
pub mod as_text_or_null {
    use super::*;

    pub fn serialize<S: Serializer>(number: &Option<u8>, to: S) -> Result<S::Ok, S::Error> {
        match number {
            Some(number) => as_text::serialize(number, to),
            None => to.serialize_none(),
        }
    }

    pub fn deserialize<'de, D: Deserializer<'de>>(from: D) -> Result<Option<u8>, D::Error> {
        let text = Option::<String>::deserialize(from)?;
        text.map(|text| text.parse().map_err(D::Error::custom)).transpose()
    }
}

/// An absent member told from null, as `serde_with` has it.
pub mod double_option {
    use super::*;

    pub fn serialize<S: Serializer>(number: &Option<Option<u8>>, to: S) -> Result<S::Ok, S::Error> {
        match number {
            Some(Some(number)) => to.serialize_u8(*number),
            Some(None) | None => to.serialize_none(),
        }
    }

    pub fn deserialize<'de, D: Deserializer<'de>>(from: D) -> Result<Option<Option<u8>>, D::Error> {
        Option::<u8>::deserialize(from).map(Some)
    }
}
