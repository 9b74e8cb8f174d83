//! Built-in names.

use leaves::Leaf;
use open_types::Head;
use rows::given::text_of;
use serde_json::Value;
use std::alloc::{AllocError, Global};

fn format_name(leaf: Leaf) -> &'static str {
    match leaf.format() {
        Some(name) => name,
        None => "no format",
    }
}

fn sign_name(leaf: Leaf) -> &'static str {
    if leaf.is_unsigned() {
        "unsigned"
    } else {
        "not unsigned"
    }
}

/// The name again, what serde reads for it, the word of its type, its format, and whether it is a whole number from 0 on.
fn leaf_text(alloc: Global, leaf: Leaf) -> Result<String, AllocError> {
    format!(in alloc;
        "{}: {:?}, {}, {}, {}",
        leaf.name(),
        leaf.kind(),
        leaf.type_word(),
        format_name(leaf),
        sign_name(leaf)
    )
}

/// What the built-in name stands for.
pub(crate) fn leaf(alloc: Global, given: &Value) -> anyhow::Result<String> {
    match Leaf::named(text_of(given)?) {
        Some(leaf) => Ok(leaf_text(alloc, leaf)?),
        None => Ok(String::from_str(alloc, "no leaf")?),
    }
}

/// The kind of the container and its name.
pub(crate) fn container(alloc: Global, given: &Value) -> anyhow::Result<String> {
    match Head::named(text_of(given)?) {
        Some(head) => Ok(format!(in alloc; "{head:?}")?),
        None => Ok(String::from_str(alloc, "no container")?),
    }
}
