//! Declarations.

use crate::answers::equality;
use crate::attribute_lists::first_word;
use crate::inputs::source;
use rows::given::pair_of;
use rows::refusal_text;
use serde_json::Value;
use std::alloc::{AllocError, Global};
use syntax::{
    Attribute, Body, Declaration, Declarations, Field, Fields, GenericParam, Generics, Meta,
    Variant, parse_declarations,
};
use texts::List;
use tokens::TokenTree;

/// The texts of doc comments and the first words of other attributes, each in brackets.
fn attributes_text(alloc: Global, attributes: &[Attribute]) -> Result<String, AllocError> {
    let texts: Vec<String> = attributes
        .iter()
        .map(|attribute| attribute_text(alloc, attribute))
        .try_collect(alloc)?;
    texts.join(alloc, "")
}

fn attribute_text(alloc: Global, attribute: &Attribute) -> Result<String, AllocError> {
    let text = match &attribute.meta {
        Meta::Doc(text) => text.as_str(),
        _ => first_word(attribute),
    };
    format!(in alloc; "[{text}] ")
}

/// The attributes, the name or `_`, and the span.
fn field_text(alloc: Global, field: &Field) -> Result<String, AllocError> {
    let name = match &field.ident {
        Some(ident) => ident.text.as_str(),
        None => "_",
    };
    let attributes = attributes_text(alloc, field.attrs.as_slice())?;
    let span = field.span;
    format!(in alloc;
        "{}{name} {}..{}",
        attributes.as_str(),
        span.start,
        span.end
    )
}

fn fields_text(alloc: Global, fields: &[Field]) -> Result<String, AllocError> {
    let texts: Vec<String> = fields
        .iter()
        .map(|field| field_text(alloc, field))
        .try_collect(alloc)?;
    texts.join(alloc, ", ")
}

/// The fields in the brackets of their form.
fn form_text(alloc: Global, fields: &Fields) -> Result<String, AllocError> {
    match fields {
        Fields::Named(fields) => {
            format!(in alloc; " {{{}}}", fields_text(alloc, fields.as_slice())?)
        }
        Fields::Unnamed(fields) => {
            format!(in alloc; " ({})", fields_text(alloc, fields.as_slice())?)
        }
        Fields::Unit => Ok(String::new(alloc)),
    }
}

/// How many tokens and groups stand behind `=`, where there is one.
fn discriminant_text(
    alloc: Global,
    discriminant: &Option<List<TokenTree>>,
) -> Result<String, AllocError> {
    match discriminant {
        Some(trees) => format!(in alloc; " = {} tokens", trees.len()),
        None => Ok(String::new(alloc)),
    }
}

/// The attributes, the name, the span, the fields and the discriminant.
fn variant_text(alloc: Global, variant: &Variant) -> Result<String, AllocError> {
    let attributes = attributes_text(alloc, variant.attrs.as_slice())?;
    let form = form_text(alloc, &variant.fields)?;
    let discriminant = discriminant_text(alloc, &variant.discriminant)?;
    let (name, span) = (variant.ident.text.as_str(), variant.span);
    format!(in alloc;
        "{}{name} {}..{}{}{}",
        attributes.as_str(),
        span.start,
        span.end,
        form.as_str(),
        discriminant.as_str()
    )
}

fn variants_text(alloc: Global, variants: &[Variant]) -> Result<String, AllocError> {
    let texts: Vec<String> = variants
        .iter()
        .map(|variant| variant_text(alloc, variant))
        .try_collect(alloc)?;
    texts.join(alloc, ", ")
}

/// The fields of a struct, or `enum` and the variants in brackets.
fn body_text(alloc: Global, body: &Body) -> Result<String, AllocError> {
    match body {
        Body::Struct(fields) => form_text(alloc, fields),
        Body::Enum(variants) => {
            format!(in alloc; " enum {{{}}}", variants_text(alloc, variants.as_slice())?)
        }
    }
}

/// A lifetime, a type or a constant.
fn parameter_text(alloc: Global, param: &GenericParam) -> Result<String, AllocError> {
    match param {
        GenericParam::Lifetime(ident) => ident.text.as_str().to_string(alloc),
        GenericParam::Ty(ident) => ident.text.as_str().to_string(alloc),
        GenericParam::Constant(ident) => format!(in alloc; "const {}", ident.text.as_str()),
    }
}

/// The generic parameters in `<` and `>`, where there are any.
fn generics_text(alloc: Global, generics: &Generics) -> Result<String, AllocError> {
    let texts: Vec<String> = generics
        .params
        .as_slice()
        .iter()
        .map(|param| parameter_text(alloc, param))
        .try_collect(alloc)?;
    if texts.is_empty() {
        return Ok(String::new(alloc));
    }
    format!(in alloc; "<{}>", texts.join(alloc, ", ")?)
}

/// The attributes, the name, the generic parameters, the span and the body.
fn declaration_text(alloc: Global, declaration: &Declaration) -> Result<String, AllocError> {
    let attributes = attributes_text(alloc, declaration.attrs.as_slice())?;
    let generics = generics_text(alloc, &declaration.generics)?;
    let body = body_text(alloc, &declaration.body)?;
    let (name, span) = (declaration.ident.text.as_str(), declaration.span);
    format!(in alloc;
        "{}{name}{} {}..{}{}",
        attributes.as_str(),
        generics.as_str(),
        span.start,
        span.end,
        body.as_str()
    )
}

fn declarations_text(alloc: Global, declarations: &[Declaration]) -> Result<String, AllocError> {
    let texts: Vec<String> = declarations
        .iter()
        .map(|declaration| declaration_text(alloc, declaration))
        .try_collect(alloc)?;
    texts.join(alloc, "; ")
}

/// The declarations of the source.
pub(crate) fn parsed(alloc: Global, given: &Value) -> anyhow::Result<String> {
    let source = source(alloc, given)?;
    match parse_declarations(alloc, source.as_str()) {
        Ok(declarations) => Ok(declarations_text(alloc, declarations.items.as_slice())?),
        Err(error) => Ok(refusal_text(alloc, &error)?),
    }
}

/// The declarations of a source that is of the grammar.
fn given_declarations(alloc: Global, given: &Value) -> anyhow::Result<Declarations> {
    let source = source(alloc, given)?;
    Ok(parse_declarations(alloc, source.as_str())?)
}

/// Whether the declarations of two sources are equal.
pub(crate) fn compared(alloc: Global, given: &Value) -> anyhow::Result<String> {
    let (one, other) = pair_of(given)?;
    let are_equal = given_declarations(alloc, one)? == given_declarations(alloc, other)?;
    Ok(equality(are_equal).to_string(alloc)?)
}
