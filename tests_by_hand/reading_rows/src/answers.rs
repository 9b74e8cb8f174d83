//! Texts of answers that many calls share.

use std::alloc::{AllocError, Global};
use texts::Span;
use tokens::TokenTree;
use words::Stop;

/// Why reading stopped, and at which bytes.
pub(crate) fn stopped(alloc: Global, stop: Stop) -> Result<String, AllocError> {
    match stop {
        Stop::Unexpected(span) => format!(in alloc; "unexpected {}..{}", span.start, span.end),
        Stop::Ended => "ended".to_string(alloc),
        Stop::Deep(span) => format!(in alloc; "deep {}..{}", span.start, span.end),
        Stop::Memory => Err(AllocError),
    }
}

/// What was read, and how many trees are left.
pub(crate) fn then_left(
    alloc: Global,
    read: &str,
    rest: &[TokenTree],
) -> Result<String, AllocError> {
    format!(in alloc; "{read}, {} left", rest.len())
}

/// The bytes of the span.
pub(crate) fn bytes(alloc: Global, span: Span) -> Result<String, AllocError> {
    format!(in alloc; "{}..{}", span.start, span.end)
}

/// What is left of a text, if that was found.
pub(crate) fn rest_of_text(alloc: Global, rest: Option<&str>) -> Result<String, AllocError> {
    match rest {
        None => "nothing".to_string(alloc),
        Some("") => "the end".to_string(alloc),
        Some(rest) => format!(in alloc; "then {rest}"),
    }
}

pub(crate) fn equality(are_equal: bool) -> &'static str {
    if are_equal { "equal" } else { "not equal" }
}

pub(crate) fn yes_or_no(holds: bool) -> &'static str {
    if holds { "yes" } else { "no" }
}

/// What the copy is, and whether it is equal to what was copied.
pub(crate) fn copied(alloc: Global, copy: &str, is_equal: bool) -> Result<String, AllocError> {
    format!(in alloc; "{copy}: {}", equality(is_equal))
}
