//! The schemas of what stands in a body, as a document.

use component::{Term, TermLeaf};
use declaration_schemas::{
    InternallyTaggedUnnamedSchema, MixedEnumContent, ObjectSchema, OneOf, PlainSchema, Property,
};
use diag::DeriveError;
use filling::{Fill, filled};
use open_types::OpenType;
use place_schemas::ToTerm;
use schema_core::Components;
use schema_trees::{Annotations, RefLeaf, Schema, Tree};
use shapes::{Body, Form, Member, Tagging, Variant};
use std::alloc::{AllocError, Global};
use std::slice;
use texts::Text;

/// A reference at each leaf of a term.
#[derive(Clone, Copy)]
struct References;

impl Fill for References {
    ghost use Rattle.std.specs.Prelude.{codes};
    ghost use Rattle.schema_trees.specs.declared.tree.RefLeaf.{RefLeaf as AnyReference};
    ghost use Rattle.schema_trees.specs.Annotations.{no_annotations};
    ghost use Rattle.schema_trees.specs.Schema.{leaf};
    ghost use Rattle.component.specs.Leaves.{LeafOf, leaf_view};

    type Hole = TermLeaf;

    type Leaf = RefLeaf;

    ghost Origin = { LeafOf };

    ghost origin = { leaf_view };

    ghost Meaning = { AnyReference };

    ghost meaning = { λ l. l };

    ghost put = { λ _ _. leaf (record { name = codes "leaf"; annotations = no_annotations }) };

    fn fill(&self, alloc: Global, _leaf: &TermLeaf) -> Result<Schema, AllocError> {
        Ok(Tree::Leaf(RefLeaf {
            name: Text::new(alloc, "leaf")?,
            annotations: Annotations::new(),
        }))
    }
}

/// Adds the schema of the term.
pub(crate) fn push_term(
    alloc: Global,
    components: &mut Components,
    name: &str,
    term: &Term,
) -> Result<(), AllocError> {
    let name = Text::new(alloc, name)?;
    let schema = filled(alloc, term, &References)?;
    components.insert(name, schema)?;
    Ok(())
}

/// Adds the schema of what has a term.
fn push<T: ToTerm>(
    alloc: Global,
    components: &mut Components,
    name: &str,
    made: &T,
) -> Result<(), DeriveError>
    requires { T.is_ready made.now }
{
    let term = made.to_term(alloc)?;
    push_term(alloc, components, name, &term)?;
    Ok(())
}

/// Adds an object around each member, under its name.
fn push_members(
    alloc: Global,
    components: &mut Components,
    members: &[Member],
) -> Result<(), DeriveError> {
    for member in members {
        let property = Property::new(member);
        let object = ObjectSchema::new(&member.name, &property);
        push(alloc, components, member.name.as_str(), &object)?;
    }
    Ok(())
}

/// Adds the names, and each of them as one of several.
fn push_names(
    alloc: Global,
    components: &mut Components,
    names: &[Text],
) -> Result<(), DeriveError> {
    push(alloc, components, "names", &PlainSchema::new(names))?;
    if let [first, second] = names {
        let (first, second) = (slice::from_ref(first), slice::from_ref(second));
        let items = [PlainSchema::new(first), PlainSchema::new(second)];
        push(alloc, components, "one", &OneOf::new(items.as_slice()))?;
    }
    Ok(())
}

/// The type of one unnamed field.
fn only_type(form: &Form) -> Option<&OpenType> {
    let Form::Unnamed(types) = form else {
        return None;
    };
    match types.as_slice() {
        [ty] => Some(ty),
        _ => None,
    }
}

/// Adds the schema of the variant, under its name.
fn push_variant(
    alloc: Global,
    components: &mut Components,
    tagging: &Tagging,
    variant: &Variant,
) -> Result<(), DeriveError> {
    let name = &variant.name;
    if let Tagging::Internal { tag } = tagging {
        if let Some(ty) = only_type(&variant.form) {
            let made = InternallyTaggedUnnamedSchema::new(tag, name, &variant.annotations, ty);
            return push(alloc, components, name.as_str(), &made);
        }
    }
    let made = MixedEnumContent::new(tagging, variant);
    push(alloc, components, name.as_str(), &made)
}

/// Adds the schemas of what stands in the body.
fn push_body(alloc: Global, components: &mut Components, body: &Body) -> Result<(), DeriveError> {
    match body {
        Body::Fields(Form::Named { members, .. }) => {
            push_members(alloc, components, members.as_slice())
        }
        Body::Fields(_) | Body::Numbers { .. } => Ok(()),
        Body::Units { names, .. } => push_names(alloc, components, names.as_slice()),
        Body::Variants { tagging, variants } => {
            for variant in variants.as_slice() {
                push_variant(alloc, components, tagging, variant)?;
            }
            Ok(())
        }
    }
}

/// The document of what stands in the body.
pub(crate) fn document(alloc: Global, body: &Body) -> Result<String, DeriveError> {
    let mut components = Components::new(alloc);
    push_body(alloc, &mut components, body)?;
    let text = components.to_text(alloc)?;
    Ok(String::from_str(alloc, text.as_str())?)
}
