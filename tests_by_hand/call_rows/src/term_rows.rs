//! Terms of declarations and of places, of which an answer has the forms.

ghost use Rattle.std.specs.Prelude.{map};
ghost use Rattle.std.specs.List.{AllByRecursion};
ghost use Rattle.syntax.specs.Items.{body_view, declaration_view, declarations_view, fields_view, variant_view};
ghost use Rattle.syntax.specs.Named.{AreNamed, HaveNames, IsNamedBody};

use crate::answers::text_or_refusal;
use crate::parts::document;
use component::{Term, copy_term};
use configuration::Config;
use declaration_schemas::{
    EnumSchema, MixedEnum, NamedStructSchema, PlainEnum, Schema, SchemaVariant, UnitStructVariant,
    UnnamedStructSchema,
};
use derive_decl::Root;
use diag::DeriveError;
use place_schemas::{ComponentSchema, ComponentSchemaProps, ToTerm};
use rows::given::{is_said, pair_of, text_of};
use schema_trees::Tree;
use scopes::{ComponentDescription, Container, Places, Scope};
use serde_json::Value;
use shapes::Body as Resolved;
use std::alloc::{AllocError, Global};
use syntax::{
    Body, CommentAttributes, Declaration, Declarations, Fields, Variant, parse_declarations,
    parse_type,
};
use terms::{declaration_term, form_term};
use texts::List;
use type_tree::TypeTree;

/// Adds the form of the term, behind a space where another stands before it.
fn push_form(text: &mut String, term: &Term) -> Result<(), AllocError> {
    if !text.is_empty() {
        text.push_str(" ")?;
    }
    text.push_str(match term {
        Tree::Leaf(_) => "leaf",
        Tree::Object(_) => "object",
        Tree::Array(_) => "array",
        Tree::OneOf(_) => "oneOf",
        Tree::AllOf(_) => "allOf",
    })
}

/// Adds the form of what has a term.
fn push_made<T: ToTerm>(alloc: Global, text: &mut String, made: &T) -> Result<(), DeriveError>
    requires { T.is_ready made.now }
{
    let term = made.to_term(alloc)?;
    push_form(text, &term)?;
    Ok(())
}

/// Adds the form of a struct with these fields.
fn push_struct(
    alloc: Global,
    text: &mut String,
    root: &Root<'_>,
    fields: &Fields,
) -> Result<(), DeriveError>
    requires { HaveNames (fields_view fields.now) }
{
    match fields {
        Fields::Named(fields) => {
            push_made(
                alloc,
                text,
                &NamedStructSchema::new(alloc, root, fields.as_slice())?,
            )
        }
        Fields::Unnamed(fields) => {
            push_made(
                alloc,
                text,
                &UnnamedStructSchema::new(alloc, root, fields.as_slice())?,
            )
        }
        Fields::Unit => push_made(alloc, text, &UnitStructVariant::new(alloc, root)?),
    }
}

/// Adds the forms of an enum with these variants: of any, and by its names or its variants, as `units` says.
fn push_enum(
    alloc: Global,
    text: &mut String,
    root: &Root<'_>,
    variants: &[Variant],
    units: bool,
) -> Result<(), DeriveError>
    requires { AllByRecursion (λ v. HaveNames v.fields) (map variant_view variants.now) }
{
    push_made(alloc, text, &EnumSchema::new(alloc, root, variants)?)?;
    if units {
        push_made(alloc, text, &PlainEnum::new(alloc, root, variants)?)
    } else {
        push_made(alloc, text, &MixedEnum::new(alloc, root, variants)?)
    }
}

/// Adds the form of the resolved body, and of a struct that of its form.
fn push_resolved(
    alloc: Global,
    text: &mut String,
    made: &SchemaVariant,
) -> Result<(), DeriveError> {
    push_made(alloc, text, made)?;
    if let Resolved::Fields(form) = &made.body {
        let term = form_term(alloc, &made.annotations, form)?;
        push_form(text, &term)?;
    }
    Ok(())
}

/// Adds the forms of the body as it is resolved, and tells whether it is that of an enum by its names.
fn push_variant(
    alloc: Global,
    text: &mut String,
    root: &Root<'_>,
    body: &Body,
) -> Result<bool, DeriveError>
    requires { IsNamedBody (body_view body.now) }
{
    let made = SchemaVariant::new(alloc, body, root)?;
    push_resolved(alloc, text, &made)?;
    Ok(matches!(&made.body, Resolved::Units { .. }))
}

/// Adds the forms of the body, and of what is written there.
fn push_body(
    alloc: Global,
    text: &mut String,
    root: &Root<'_>,
    body: &Body,
) -> Result<(), DeriveError>
    requires { IsNamedBody (body_view body.now) }
{
    let units = push_variant(alloc, text, root, body)?;
    match body {
        Body::Struct(fields) => push_struct(alloc, text, root, fields),
        Body::Enum(variants) => push_enum(alloc, text, root, variants.as_slice(), units),
    }
}

/// Adds the form of the declaration, and of what it is resolved to.
fn push_schema(alloc: Global, text: &mut String, schema: &Schema<'_>) -> Result<(), DeriveError>
    requires { IsNamedBody (body_view schema.now.body.now) }
{
    push_made(alloc, text, schema)?;
    let resolved = schema.resolve(alloc)?;
    let term = declaration_term(alloc, &resolved)?;
    push_form(text, &term)?;
    Ok(())
}

/// How many places the declaration has.
fn places_text(alloc: Global, schema: &Schema<'_>) -> Result<String, DeriveError>
    requires { IsNamedBody (body_view schema.now.body.now) }
{
    let types = schema.place_types(alloc)?;
    Ok(types.len().to_string(alloc)?)
}

/// The declaration by its name and attributes.
fn root_of<'a>(first: &'a Declaration, container: &'a Container<'_>) -> Root<'a> {
    Root {
        ident: &first.ident,
        attributes: first.attrs.as_slice(),
        container,
    }
}

/// The document of what stands in the declaration's body.
fn of_parts(
    alloc: Global,
    first: &Declaration,
    container: &Container<'_>,
) -> Result<String, DeriveError>
    requires { IsNamedBody (declaration_view first.now).body }
{
    let made = SchemaVariant::new(alloc, &first.body, &root_of(first, container))?;
    document(alloc, &made.body)
}

/// How many places the declaration has, its form, and the forms of what it is resolved to.
fn of_declaration(
    alloc: Global,
    first: &Declaration,
    container: &Container<'_>,
) -> Result<String, DeriveError>
    requires { IsNamedBody (declaration_view first.now).body }
{
    let schema = Schema::new(&first.body, first.attrs.as_slice(), &first.ident, container);
    let root = root_of(first, container);
    let mut text = places_text(alloc, &schema)?;
    push_schema(alloc, &mut text, &schema)?;
    push_body(alloc, &mut text, &root, &first.body)?;
    Ok(text)
}

/// The form of a place and that of a copy of its term, and how many declarations it names.
fn made_text(alloc: Global, made: &ComponentSchema) -> Result<String, DeriveError> {
    let mut text = made.schema_references.len().to_string(alloc)?;
    push_made(alloc, &mut text, made)?;
    let copy = copy_term(alloc, &made.term)?;
    push_form(&mut text, &copy)?;
    Ok(text)
}

/// What the schema of the place is, which is that of a parameter where the row says whether an option is nullable.
fn of_props(
    alloc: Global,
    props: ComponentSchemaProps<'_, '_>,
    given: &Value,
) -> Result<String, DeriveError> {
    let made = match given.get("option_is_nullable").and_then(Value::as_bool) {
        Some(is_nullable) => ComponentSchema::for_params(alloc, props, is_nullable),
        None => ComponentSchema::new(alloc, props),
    };
    made_text(alloc, &made?)
}

/// What the schema of a place of the row's type is.
fn of_place(
    alloc: Global,
    container: &Container<'_>,
    given: &Value,
) -> Result<String, DeriveError> {
    let written = given.get("type").and_then(Value::as_str).unwrap_or("");
    let written = parse_type(alloc, written)?;
    let tree = TypeTree::from_type(alloc, &written)?;
    let comments = CommentAttributes(List::new(alloc));
    let comments = ComponentDescription::CommentAttributes(&comments);
    let description = Some(&comments);
    let props = ComponentSchemaProps {
        container: &*container,
        type_tree: &tree,
        written: &written,
        nullable: false,
        inline: is_said(given, "inline"),
        deprecated: false,
        description,
    };
    of_props(alloc, props, given)
}

/// The answer for the first of the declarations, which stands there.
fn of_container(
    alloc: Global,
    call: &str,
    first: &Declaration,
    container: &Container<'_>,
    given: &Value,
) -> Result<String, DeriveError>
    requires { IsNamedBody (declaration_view first.now).body }
{
    match call {
        "place" => of_place(alloc, container, given),
        "parts" => of_parts(alloc, first, container),
        _ => of_declaration(alloc, first, container),
    }
}

/// The answer for the first of the declarations.
fn of_first(
    alloc: Global,
    call: &str,
    places: &Places<'_>,
    given: &Value,
) -> Result<String, DeriveError>
    requires { AreNamed (declarations_view places.now.declarations.now) }
{
    let [first, ..] = places.declarations.items.as_slice() else {
        return Ok(String::from_str(alloc, "no declaration")?);
    };
    let scope = Scope::new(alloc, &*places, 0)?;
    let config = Config::new(alloc);
    let container = Container {
        scope: &scope,
        config: &config,
    };
    of_container(alloc, call, first, &container, given)
}

/// The answer for the first of the declarations.
fn of_parsed(
    alloc: Global,
    call: &str,
    declarations: &Declarations,
    given: &Value,
) -> Result<String, DeriveError>
    requires { AreNamed (declarations_view declarations.now) }
{
    let places = Places::new(alloc, declarations)?;
    of_first(alloc, call, &places, given)
}

/// The answer for the first declaration of the source.
fn of_text(alloc: Global, call: &str, source: &str, given: &Value) -> Result<String, DeriveError> {
    syntax::read_fields_are_named();
    let declarations = parse_declarations(alloc, source)?;
    of_parsed(alloc, call, &declarations, given)
}

/// The answer for the first declaration of the source, the first of the list, of which the second says more; or how its
/// refusal is told.
pub(crate) fn of_source(alloc: Global, call: &str, given: &Value) -> anyhow::Result<String> {
    let (source, given) = pair_of(given)?;
    let made = of_text(alloc, call, text_of(source)?, given);
    Ok(text_or_refusal(alloc, made)?)
}
