//! Rename rules, their tables, and what names become by them.

use anyhow::bail;
use diag::{RenamePlace, RenameRow, RenameRule, RenameTable};
use rows::given::{items_at, list_of, text_of};
use serde_json::Value;
use std::alloc::{AllocError, Global};
use std::str::FromStr;
use texts::Text;

const RULES: [RenameRule; 8] = [
    RenameRule::Lower,
    RenameRule::Upper,
    RenameRule::Camel,
    RenameRule::Snake,
    RenameRule::ScreamingSnake,
    RenameRule::Pascal,
    RenameRule::Kebab,
    RenameRule::ScreamingKebab,
];

/// The rule of the name, its name and how it is printed, or why there is none.
pub(crate) fn rule(alloc: Global, given: &Value) -> anyhow::Result<String> {
    match RenameRule::from_str(text_of(given)?) {
        Ok(rule) => Ok(format!(in alloc; "{rule:?} {} {rule}", rule.name())?),
        Err(unknown) => Ok(format!(in alloc; "{unknown}")?),
    }
}

fn place_named(name: &str) -> anyhow::Result<RenamePlace> {
    match name {
        "field" => Ok(RenamePlace::Field),
        "variant" => Ok(RenamePlace::Variant),
        other => bail!("no place {other}"),
    }
}

/// The row of a rule's name, a place, a name and what it becomes.
fn row_of(alloc: Global, given: &Value) -> anyhow::Result<RenameRow> {
    let [rule, place, from, to] = list_of(given)? else {
        bail!("a rule, a place and two names");
    };
    Ok(RenameRow {
        rule: RenameRule::from_str(text_of(rule)?)?,
        place: place_named(text_of(place)?)?,
        from: Text::new(alloc, text_of(from)?)?,
        to: Text::new(alloc, text_of(to)?)?,
    })
}

/// The table of the rows.
pub(crate) fn table_of(alloc: Global, given: &Value) -> anyhow::Result<RenameTable> {
    let mut table = RenameTable::new(alloc);
    for row in items_at(given, "rows")? {
        table.push(row_of(alloc, row)?)?;
    }
    Ok(table)
}

/// Adds what the name becomes by the rule at the place, where it becomes something.
fn push_renamed(
    alloc: Global,
    text: &mut String,
    what: (RenameRule, &str, &str),
    to: Option<&str>,
) -> Result<(), AllocError> {
    let Some(to) = to else {
        return Ok(());
    };
    if !text.is_empty() {
        text.push_str(", ")?;
    }
    let (rule, place, name) = what;
    text.push_str(format!(in alloc; "{rule} {place} {name}: {to}")?.as_str())
}

/// What the names become by the table's rows, for each rule and each place.
pub(crate) fn renamed(
    alloc: Global,
    table: &RenameTable,
    names: &[Value],
) -> anyhow::Result<String> {
    let mut text = String::new(alloc);
    for rule in RULES {
        for name in names {
            let name = text_of(name)?;
            let field = rule.rename(table, name);
            push_renamed(alloc, &mut text, (rule, "field", name), field)?;
            let variant = rule.rename_variant(table, name);
            push_renamed(alloc, &mut text, (rule, "variant", name), variant)?;
        }
    }
    Ok(text)
}

/// What the names become by the rows.
pub(crate) fn renames(alloc: Global, given: &Value) -> anyhow::Result<String> {
    renamed(alloc, &table_of(alloc, given)?, items_at(given, "names")?)
}
