//! Refusals, and what they report.

use diag::{DeriveError, Diagnostics};
use rows::report_text;
use std::alloc::{AllocError, Global};
use texts::Text;

/// How many instances there are and the first two, or nothing where there are none.
fn instances_text(alloc: Global, instances: &[Text]) -> Result<String, AllocError> {
    let mut text = String::new(alloc);
    if !instances.is_empty() {
        text.push_str(format!(in alloc; ", {} instances:", instances.len())?.as_str())?;
    }
    for instance in instances.iter().take(2) {
        text.push_str(" ")?;
        text.push_str(instance.as_str())?;
    }
    Ok(text)
}

/// The kind, the span, the message and the instances of what is reported.
pub(crate) fn reported(alloc: Global, diagnostics: &Diagnostics) -> Result<String, AllocError> {
    let mut text = report_text(alloc, diagnostics)?;
    text.push_str(instances_text(alloc, diagnostics.instances())?.as_str())?;
    Ok(text)
}

/// What the refusal reports.
pub(crate) fn refused(alloc: Global, error: &DeriveError) -> Result<String, AllocError> {
    match error {
        DeriveError::Refused(diagnostics) => reported(alloc, diagnostics),
        DeriveError::Memory => Err(AllocError),
    }
}

/// What the refusal reports, with its notes and what may be done.
pub(crate) fn with_notes(alloc: Global, error: &DeriveError) -> Result<String, AllocError> {
    match error {
        DeriveError::Refused(diagnostics) => {
            let located = diagnostics.located(alloc)?;
            String::from_str(alloc, located.as_str())
        }
        DeriveError::Memory => Err(AllocError),
    }
}
