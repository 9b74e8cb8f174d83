//! The schemas of declarations with flattened fields or numbers, each made of what a row says stands in it.

use crate::parts::push_term;
use anyhow::bail;
use leaves::Leaf;
use open_types::OpenType;
use rows::given::{is_said, list_at};
use schema_core::Components;
use schema_trees::Bound;
use serde_json::Value;
use shapes::{
    Annotations, Beside, Body, Declaration, Flattened, FlattenedMap, Form, Member, Tagging, Variant,
};
use std::alloc::{AllocError, Global};
use terms::declaration_term;
use texts::{List, Text};

fn unannotated() -> Annotations {
    Annotations {
        deprecated: false,
        description: None,
    }
}

/// A flattened field of the first declaration, where the row says `struct`.
fn flattened_fields(alloc: Global, given: &Value) -> Result<List<Flattened>, AllocError> {
    let mut flattened = List::new(alloc);
    if is_said(given, "struct") {
        flattened.push(Flattened {
            name: Text::new(alloc, "a")?,
            annotations: unannotated(),
            ty: OpenType::Named(0, List::new(alloc)),
        })?;
    }
    Ok(flattened)
}

/// A flattened map of numbers or nulls that is described, where the row says `map`.
fn flattened_map(alloc: Global, given: &Value) -> Result<Option<FlattenedMap>, AllocError> {
    if !is_said(given, "map") {
        return Ok(None);
    }
    Ok(Some(FlattenedMap {
        name: Text::new(alloc, "rest")?,
        annotations: Annotations {
            deprecated: false,
            description: Some(Text::new(alloc, "Rest.")?),
        },
        key: OpenType::Leaf(Leaf::String),
        value: OpenType::Option(Box::new(alloc, OpenType::Leaf(Leaf::U8))?),
    }))
}

/// A member `x`, where the row says `own`.
fn members(alloc: Global, given: &Value) -> Result<List<Member>, AllocError> {
    let mut members = List::new(alloc);
    if is_said(given, "own") {
        members.push(Member {
            name: Text::new(alloc, "x")?,
            required: true,
            annotations: unannotated(),
            ty: OpenType::Leaf(Leaf::Bool),
        })?;
    }
    Ok(members)
}

/// Named fields of what the row says.
fn form(alloc: Global, given: &Value) -> Result<Form, AllocError> {
    let beside = Beside {
        flattened: flattened_fields(alloc, given)?,
        map: flattened_map(alloc, given)?,
    };
    Ok(Form::Named {
        denies_others: is_said(given, "denies"),
        beside: Some(Box::new(alloc, beside)?),
        members: members(alloc, given)?,
    })
}

/// By a tag `t`, where the row says `tag`.
fn tagging(alloc: Global, given: &Value) -> Result<Tagging, AllocError> {
    if is_said(given, "tag") {
        let tag = Text::new(alloc, "t")?;
        return Ok(Tagging::Internal { tag });
    }
    Ok(Tagging::External)
}

/// A struct of what the row says, or where it says `tag` a variant `V` of that.
fn fields(alloc: Global, given: &Value) -> Result<Body, AllocError> {
    let form = form(alloc, given)?;
    if !is_said(given, "tag") {
        return Ok(Body::Fields(form));
    }
    let mut variants = List::new(alloc);
    variants.push(Variant {
        name: Text::new(alloc, "V")?,
        annotations: unannotated(),
        form,
    })?;
    let tagging = tagging(alloc, given)?;
    Ok(Body::Variants { tagging, variants })
}

/// An enum of the numbers, by a tag where the row says `tag`.
fn numbers(alloc: Global, given: &Value, items: &[Value]) -> anyhow::Result<Body> {
    let mut numbers = List::new(alloc);
    for item in items {
        let Some(number) = item.as_i64().and_then(|number| Bound::new(number as i128)) else {
            bail!("no number");
        };
        numbers.push(number)?;
    }
    let tagging = tagging(alloc, given)?;
    Ok(Body::Numbers { tagging, numbers })
}

/// How many places the body has, and the document of its declaration.
fn told(alloc: Global, body: Body) -> anyhow::Result<String> {
    let declaration = Declaration {
        name: Text::new(alloc, "S")?,
        parameters: 0,
        annotations: unannotated(),
        body,
    };
    let places = declaration.types(alloc)?.len();
    let mut components = Components::new(alloc);
    push_term(
        alloc,
        &mut components,
        "S",
        &declaration_term(alloc, &declaration)?,
    )?;
    let text = components.to_text(alloc)?;
    Ok(format!(in alloc; "{places} {}", text.as_str())?)
}

/// How many places the declaration has that the row says, and its document, with a reference at each leaf.
pub(crate) fn declaration(alloc: Global, given: &Value) -> anyhow::Result<String> {
    let body = if is_said(given, "numbered") {
        numbers(alloc, given, list_at(given, "numbers")?)?
    } else {
        fields(alloc, given)?
    };
    told(alloc, body)
}
