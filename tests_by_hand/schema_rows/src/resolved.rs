//! What declarations are resolved to.

use shapes::{Annotations, Body, Declaration, Form, Member, Tagging, Variant};
use std::alloc::{AllocError, Global};
use texts::Text;

/// Adds the names of the members, with `?` where one need not be there.
fn push_members(text: &mut String, members: &[Member]) -> Result<(), AllocError> {
    for member in members {
        text.push(' ')?;
        text.push_str(member.name.as_str())?;
        if !member.required {
            text.push('?')?;
        }
    }
    Ok(())
}

/// Adds what is said of a declaration or a variant.
fn push_annotations(text: &mut String, annotations: &Annotations) -> Result<(), AllocError> {
    if annotations.deprecated {
        text.push_str(", deprecated")?;
    }
    if let Some(description) = &annotations.description {
        text.push_str(", described as ")?;
        text.push_str(description.as_str())?;
    }
    Ok(())
}

/// Adds the form and its members.
fn push_form(text: &mut String, form: &Form) -> Result<(), AllocError> {
    match form {
        Form::Named {
            denies_others,
            beside,
            members,
        } => {
            text.push_str(if beside.is_some() {
                " named beside what is flattened:"
            } else {
                " named:"
            })?;
            push_members(text, members.as_slice())?;
            text.push_str(if *denies_others {
                " and no others"
            } else {
                ""
            })
        }
        Form::Unnamed(types) => text.push_str(if types.len() == 1 {
            " of one"
        } else {
            " of several"
        }),
        Form::Unit => text.push_str(" unit"),
    }
}

/// Adds how values tell their variant.
fn push_tagging(text: &mut String, tagging: &Tagging) -> Result<(), AllocError> {
    match tagging {
        Tagging::External => text.push_str(" of"),
        Tagging::Internal { tag } => {
            text.push_str(" tagged ")?;
            text.push_str(tag.as_str())
        }
        Tagging::Adjacent { tag, content } => {
            text.push_str(" tagged ")?;
            text.push_str(tag.as_str())?;
            text.push_str(" beside ")?;
            text.push_str(content.as_str())
        }
        Tagging::Untagged => text.push_str(" untagged"),
    }
}

/// Adds the names of the variants.
fn push_names(text: &mut String, names: &[Text]) -> Result<(), AllocError> {
    for name in names {
        text.push(' ')?;
        text.push_str(name.as_str())?;
    }
    Ok(())
}

/// Adds the variants, each in brackets: its name, and its form with what is said of it.
fn push_variants(text: &mut String, variants: &[Variant]) -> Result<(), AllocError> {
    for variant in variants {
        text.push_str(" (")?;
        text.push_str(variant.name.as_str())?;
        push_form(text, &variant.form)?;
        push_annotations(text, &variant.annotations)?;
        text.push(')')?;
    }
    Ok(())
}

/// Adds how the enum tells its variants, and their names.
fn push_units(text: &mut String, tagging: &Tagging, names: &[Text]) -> Result<(), AllocError> {
    push_tagging(text, tagging)?;
    text.push(':')?;
    push_names(text, names)
}

/// Adds how the enum tells its variants, and the variants.
fn push_mixed(
    text: &mut String,
    tagging: &Tagging,
    variants: &[Variant],
) -> Result<(), AllocError> {
    text.push_str(" mixed")?;
    if !matches!(tagging, Tagging::External) {
        push_tagging(text, tagging)?;
    }
    text.push(':')?;
    push_variants(text, variants)
}

/// Adds the name, the form of the struct or the variants of the enum, and what is said of it.
fn push_declaration(text: &mut String, of: &Declaration) -> Result<(), AllocError> {
    text.push_str(of.name.as_str())?;
    match &of.body {
        Body::Fields(form) => push_form(text, form)?,
        Body::Units { tagging, names } => push_units(text, tagging, names.as_slice())?,
        Body::Numbers { tagging, .. } => {
            push_tagging(text, tagging)?;
            text.push_str(" by numbers")?;
        }
        Body::Variants { tagging, variants } => push_mixed(text, tagging, variants.as_slice())?,
    }
    push_annotations(text, &of.annotations)
}

/// The form of a struct with its members, or the variants of an enum, and what is said of it.
pub(crate) fn declaration_text(alloc: Global, of: &Declaration) -> Result<String, AllocError> {
    let mut text = String::new(alloc);
    push_declaration(&mut text, of)?;
    Ok(text)
}

/// The declarations, one behind the other.
pub(crate) fn declarations_text(alloc: Global, all: &[Declaration]) -> Result<String, AllocError> {
    let mut text = String::new(alloc);
    for of in all {
        if !text.is_empty() {
            text.push_str("; ")?;
        }
        push_declaration(&mut text, of)?;
    }
    Ok(text)
}
