//! How answers are told.

use diag::DeriveError;
use rows::refusal_text;
use std::alloc::{AllocError, Global};

/// The word for a copy that is equal, or is not.
pub(crate) fn equality(is_equal: bool) -> &'static str {
    if is_equal { "equal" } else { "not equal" }
}

/// The word, or how the refusal is told.
pub(crate) fn word_or_refusal(
    alloc: Global,
    made: &Result<&'static str, DeriveError>,
) -> Result<String, AllocError> {
    match made {
        Ok(word) => String::from_str(alloc, word),
        Err(error) => refusal_text(alloc, error),
    }
}

/// The text, or how the refusal is told.
pub(crate) fn text_or_refusal(
    alloc: Global,
    made: Result<String, DeriveError>,
) -> Result<String, AllocError> {
    match made {
        Ok(text) => Ok(text),
        Err(error) => refusal_text(alloc, &error),
    }
}
