//! What serde's attributes say.

use crate::refusals::refused;
use crate::renamed::table_of;
use anyhow::bail;
use attributes::{Attribute, attributes_at};
use diag::{RenameRule, RenameTable};
use lexing::lex;
use rows::given::{pair_of, text_at, text_of};
use serde_json::Value;
use serde_rules::names::rename;
use serde_rules::{
    FieldRename, NoRow, Rename, SerdeContainer, SerdeEnumRepr, SerdeValue, VariantRename, has_item,
    is_required, parse_container, parse_value,
};
use std::alloc::{AllocError, Global};
use std::str::FromStr;
use texts::List;

/// What the call of the crate `serde_rules` answers.
pub(crate) fn told(alloc: Global, call: &str, given: &Value) -> anyhow::Result<String> {
    match call {
        "container" => container(alloc, given),
        "containers" => containers(alloc, given),
        "value" => value(alloc, given),
        "values" => values(alloc, given),
        "item" => item(alloc, given),
        "required" => required(alloc, given),
        "rename" => names(alloc, given),
        other => bail!("no call {other}"),
    }
}

/// The attributes that the text is.
fn attributes_of(alloc: Global, text: &str) -> anyhow::Result<List<Attribute>> {
    let trees = lex(alloc, text)?;
    match attributes_at(alloc, trees.as_slice()) {
        Ok((attributes, [])) => Ok(attributes),
        _ => bail!("attributes, and not {text}"),
    }
}

fn container_of(alloc: Global, given: &Value) -> anyhow::Result<SerdeContainer> {
    let attributes = attributes_of(alloc, text_of(given)?)?;
    Ok(parse_container(alloc, attributes.as_slice())?)
}

fn value_of(alloc: Global, given: &Value) -> anyhow::Result<SerdeValue> {
    let attributes = attributes_of(alloc, text_of(given)?)?;
    Ok(parse_value(alloc, attributes.as_slice())?)
}

fn repr_text(alloc: Global, repr: &SerdeEnumRepr) -> Result<String, AllocError> {
    match repr {
        SerdeEnumRepr::ExternallyTagged => String::from_str(alloc, "external"),
        SerdeEnumRepr::InternallyTagged { tag } => {
            format!(in alloc; "internal {}", tag.as_str())
        }
        SerdeEnumRepr::AdjacentlyTagged { tag, content } => {
            format!(in alloc; "adjacent {} {}", tag.as_str(), content.as_str())
        }
        SerdeEnumRepr::Untagged => String::from_str(alloc, "untagged"),
        SerdeEnumRepr::UnfinishedAdjacentlyTagged { content } => {
            format!(in alloc; "unfinished {}", content.as_str())
        }
    }
}

/// Adds the word where it holds, behind a space if it is not the first.
fn push_word(text: &mut String, holds: bool, word: &str) -> Result<(), AllocError> {
    if !holds {
        return Ok(());
    }
    if !text.is_empty() {
        text.push_str(" ")?;
    }
    text.push_str(word)
}

/// The rule for names, a copy of the representation with its tag and its content, and whether fields may be absent and
/// others are denied.
fn container_text(alloc: Global, rules: &SerdeContainer) -> Result<String, AllocError> {
    let mut text = String::new(alloc);
    if let Some(rule) = &rules.rename_all {
        push_word(&mut text, true, rule.name())?;
    }
    let repr = repr_text(alloc, &rules.enum_repr.copy(alloc)?)?;
    push_word(&mut text, true, repr.as_str())?;
    push_word(&mut text, rules.default, "default")?;
    push_word(&mut text, rules.deny_unknown_fields, "deny")?;
    Ok(text)
}

/// What the attributes say of a struct or an enum.
fn container(alloc: Global, given: &Value) -> anyhow::Result<String> {
    let attributes = attributes_of(alloc, text_of(given)?)?;
    match parse_container(alloc, attributes.as_slice()) {
        Ok(rules) => Ok(container_text(alloc, &rules)?),
        Err(error) => Ok(refused(alloc, &error)?),
    }
}

/// Whether the attributes say the same of a struct as the others, or as none do where there are no others.
fn containers(alloc: Global, given: &Value) -> anyhow::Result<String> {
    let (one, other) = pair_of(given)?;
    let other = match other {
        Value::Null => SerdeContainer::default(),
        attributes => container_of(alloc, attributes)?,
    };
    let equal = container_of(alloc, one)? == other;
    Ok(format!(in alloc; "{equal}")?)
}

fn value_text(alloc: Global, rules: &SerdeValue) -> Result<String, AllocError> {
    let mut text = String::new(alloc);
    push_word(&mut text, rules.skip, "skip")?;
    if let Some(name) = &rules.rename {
        let word = format!(in alloc; "name={}", name.as_str())?;
        push_word(&mut text, true, word.as_str())?;
    }
    push_word(&mut text, rules.default, "default")?;
    push_word(&mut text, rules.flatten, "flatten")?;
    push_word(&mut text, rules.skip_serializing_if, "skip_if")?;
    push_word(&mut text, rules.double_option, "double")?;
    Ok(text)
}

/// What the attributes say of a field or a variant.
fn value(alloc: Global, given: &Value) -> anyhow::Result<String> {
    Ok(value_text(alloc, &value_of(alloc, given)?)?)
}

/// Whether the attributes say the same of a field as the others, or as none do where there are no others.
fn values(alloc: Global, given: &Value) -> anyhow::Result<String> {
    let (one, other) = pair_of(given)?;
    let other = match other {
        Value::Null => SerdeValue::default(),
        attributes => value_of(alloc, attributes)?,
    };
    let equal = value_of(alloc, one)? == other;
    Ok(format!(in alloc; "{equal}")?)
}

/// Whether an item of the name is among the attributes.
fn item(alloc: Global, given: &Value) -> anyhow::Result<String> {
    let (attributes, name) = pair_of(given)?;
    let attributes = attributes_of(alloc, text_of(attributes)?)?;
    let name = text_of(name)?;
    let has = attributes
        .as_slice()
        .iter()
        .any(|attribute| has_item(attribute.items.as_slice(), name));
    Ok(format!(in alloc; "{has}")?)
}

/// Whether the member of a field with the first attributes in a struct with the others is always there.
fn required(alloc: Global, given: &Value) -> anyhow::Result<String> {
    let (field, container) = pair_of(given)?;
    let field = value_of(alloc, field)?;
    let required = is_required(&field, &container_of(alloc, container)?);
    Ok(format!(in alloc; "{required}")?)
}

/// The new name, or that the name stays, or that there is no row.
fn name_text(alloc: Global, name: Result<Option<&str>, NoRow>) -> Result<String, AllocError> {
    match name {
        Ok(Some(name)) => String::from_str(alloc, name),
        Ok(None) => String::from_str(alloc, "stays"),
        Err(no_row) => format!(in alloc; "{no_row}"),
    }
}

fn new_name<R: Rename>(
    alloc: Global,
    table: &RenameTable,
    given: &Value,
) -> anyhow::Result<String> {
    let to = given.get("to").and_then(Value::as_str);
    let rule = match given.get("rule").and_then(Value::as_str) {
        Some(name) => Some(RenameRule::from_str(name)?),
        None => None,
    };
    let name = rename::<R>(table, text_at(given, "name")?, to, rule.as_ref());
    Ok(name_text(alloc, name)?)
}

/// What the name becomes as a field and as a variant, with the name that is given and the rule of its struct or enum.
fn names(alloc: Global, given: &Value) -> anyhow::Result<String> {
    let table = table_of(alloc, given)?;
    let field = new_name::<FieldRename>(alloc, &table, given)?;
    let variant = new_name::<VariantRename>(alloc, &table, given)?;
    Ok(format!(in alloc; "field: {}, variant: {}", field.as_str(), variant.as_str())?)
}
