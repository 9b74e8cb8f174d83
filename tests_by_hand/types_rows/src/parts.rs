//! Texts of several parts.

use std::alloc::{AllocError, Global};

/// Adds the part at the end of the text, behind the separator where another part stands there.
pub(crate) fn push_after(text: &mut String, separator: &str, part: &str) -> Result<(), AllocError> {
    if !text.is_empty() {
        text.push_str(separator)?;
    }
    text.push_str(part)
}

/// The names of the tests that hold, or `no test`.
pub(crate) fn names_holding(alloc: Global, tests: &[(&str, bool)]) -> Result<String, AllocError> {
    let mut text = String::new(alloc);
    for (name, holds) in tests {
        if *holds {
            push_after(&mut text, " ", name)?;
        }
    }
    if text.is_empty() {
        text.push_str("no test")?;
    }
    Ok(text)
}
