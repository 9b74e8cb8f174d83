//! The schemas of instances, each by a call of its own.

ghost use Rattle.syntax.specs.Items.{declarations_view};
ghost use Rattle.syntax.specs.Named.{AreNamed};
ghost use Rattle.compose.specs.Sets.{AreInstancesOf, AreTermsOf, declarations_of};

use crate::answers::text_or_refusal;
use compose::{InstanceSet, TermSet, component_name, compose, instances, terms};
use configuration::Config;
use diag::DeriveError;
use open_types::ClosedType;
use rows::given::text_of;
use schema_core::Components;
use serde_json::Value;
use std::alloc::Global;
use syntax::{Declarations, parse_declarations};

/// Adds the component of the declaration at the place, where it is an instance without arguments.
fn push_component(
    alloc: Global,
    components: &mut Components,
    declarations: &Declarations,
    terms: &TermSet,
    set: &InstanceSet,
    config: &Config,
    place: usize,
) -> Result<(), DeriveError>
    requires terms { AreTermsOf config.now (declarations_view declarations.now) terms.now }
    requires instances { AreInstancesOf (declarations_of terms.now) set.now }
{
    let ty = ClosedType::declared(alloc, place);
    if set.contains(&ty) {
        let name = component_name(alloc, declarations, &ty)?;
        let schema = compose(alloc, declarations, terms, set, config, &ty)?;
        components.insert(name, schema)?;
    }
    Ok(())
}

/// The document of those of the declarations that are instances without arguments.
fn document(
    alloc: Global,
    declarations: &Declarations,
    terms: &TermSet,
    set: &InstanceSet,
    config: &Config,
) -> Result<String, DeriveError>
    requires terms { AreTermsOf config.now (declarations_view declarations.now) terms.now }
    requires instances { AreInstancesOf (declarations_of terms.now) set.now }
{
    let mut components = Components::new(alloc);
    for place in 0..declarations.items.len() {
        push_component(
            alloc,
            &mut components,
            declarations,
            terms,
            set,
            config,
            place,
        )?;
    }
    let text = components.to_text(alloc)?;
    Ok(String::from_str(alloc, text.as_str())?)
}

/// The document of the declarations that are instances without arguments.
fn of_declarations(alloc: Global, declarations: &Declarations) -> Result<String, DeriveError>
    requires { AreNamed (declarations_view declarations.now) }
{
    let config = Config::new(alloc);
    let terms = terms(alloc, declarations, &config)?;
    let set = instances(alloc, declarations, &terms, &config)?;
    document(alloc, declarations, &terms, &set, &config)
}

/// The document of the source's declarations that are instances without arguments.
fn of_text(alloc: Global, source: &str) -> Result<String, DeriveError> {
    syntax::read_fields_are_named();
    let declarations = parse_declarations(alloc, source)?;
    of_declarations(alloc, &declarations)
}

/// The document of the source's declarations that are instances without arguments, or how their refusal is told.
pub(crate) fn of_source(alloc: Global, given: &Value) -> anyhow::Result<String> {
    let made = of_text(alloc, text_of(given)?);
    Ok(text_or_refusal(alloc, made)?)
}
